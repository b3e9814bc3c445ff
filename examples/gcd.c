/* Euclid's rule for the greatest common divisor, by remainders.
   `%` traps where its right operand is 0, so the test of the loop stands before it.
   `putint` writes a word as a decimal number.
   Stage: one main. Status: 0. */
int main() {
    int a = 1071, b = 462, rest;
    while (b != 0) {
        rest = a % b;
        a = b;
        b = rest;
    }
    putint(a);
    putchar('\n');
    return 0;
}
