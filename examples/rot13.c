/* Letters are moved on by 13 places, and all other bytes stay.
   `getchar` answers the next byte of the input, or -1 at its end.
   Conditions are words, and `&&` and `? :` evaluate only what they need.
   Stage: one main. Status: 0. */
int main() {
    int c, base;
    while ((c = getchar()) >= 0) {
        base = c >= 'a' && c <= 'z' ? 'a' : c >= 'A' && c <= 'Z' ? 'A' : 0;
        if (base)
            c = base + (c - base + 13) % 26;
        putchar(c);
    }
    return 0;
}
