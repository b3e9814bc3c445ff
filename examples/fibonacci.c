/* Fibonacci's numbers below 100, each with two digits, by sums, differences and comparisons alone.
   The tens are counted by taking ten away, as often as that goes.
   The status is the first number that wasn't written.
   Stage: basics. Status: 144. */
int main() {
    int a;
    int b = 1;
    int next;
    int tens;
    int ones;
    while (a < 100) {
        tens = 0;
        ones = a;
        while (9 < ones) {
            ones = ones - 10;
            tens = tens + 1;
        }
        putchar(48 + tens);
        putchar(48 + ones);
        putchar(10);
        next = a + b;
        a = b;
        b = next;
    }
    return a;
}
