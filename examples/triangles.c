/* The right triangles of three whole sides up to 30 that have no common divisor, the shortest side first.
   `for`, `break`, `continue`, `%` and `&&` mean what they do in C.
   The status is how many triangles there are.
   Stage: one main. Status: 5. */
int main() {
    int a, b, c, d, count = 0;
    for (a = 1; a < 30; a++) {
        for (b = a + 1; b < 30; b++) {
            for (c = b + 1; c * c < a * a + b * b; c++)
                ;
            if (c > 30)
                break;
            if (c * c > a * a + b * b)
                continue;
            for (d = 2; d <= a && (a % d || b % d); d++)
                ;
            if (d <= a)
                continue;
            putint(a);
            putchar(' ');
            putint(b);
            putchar(' ');
            putint(c);
            putchar('\n');
            count += 1;
        }
    }
    return count;
}
