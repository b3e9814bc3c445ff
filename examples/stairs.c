/* Two loops, one in the other, write stairs of three steps.
   A variable is 0 as its block is entered, so the first loop needs no beginning.
   The status tells what the variables were at the end: 3 and 3.
   Stage: basics. Status: 6. */
int main() {
    int i;
    int j;
    while (i < 3) {
        j = 0;
        while (j < i + 1) {
            putchar(42);
            j = j + 1;
        }
        putchar(10);
        i = i + 1;
    }
    return i + j;
}
