/* Counts, reversals and rotations of bits, three ways that must agree.
   Plain C. Status 0. Writes "16 16 16 1 -252645136 878082066 31". */
int by_one(unsigned n)
{
    int c;
    for (c = 0; n; n >>= 1) c += n & 1;
    return c;
}
int by_last(unsigned n)
{
    int c;
    for (c = 0; n; c++) n &= n - 1;
    return c;
}
int by_parts(unsigned n)
{
    n = n - (n >> 1 & 0x55555555);
    n = (n & 0x33333333) + (n >> 2 & 0x33333333);
    return (n + (n >> 4) & 0x0f0f0f0f) * 0x01010101 >> 24;
}
unsigned reversed(unsigned n)
{
    unsigned r;
    int i;
    r = 0;
    for (i = 0; i < 32; i++) r = r << 1 | n >> i & 1;
    return r;
}
unsigned rotated(unsigned n, int by) { return n << (by & 31) | n >> (-by & 31); }
int main()
{
    int i, good;
    unsigned n;
    putint(by_one(0x0f0f0f0f)); putchar(' ');
    putint(by_last(0x0f0f0f0f)); putchar(' ');
    putint(by_parts(0x0f0f0f0f)); putchar(' ');
    good = 1;
    n = 1;
    for (i = 0; i < 100; i++) {
        good = good && by_one(n) == by_parts(n) && by_last(n) == by_one(reversed(n));
        n = n * 69069 + 1;
    }
    putint(good); putchar(' ');
    putint(reversed(0x0f0f0f0f)); putchar(' ');
    putint(rotated(0x12345678, 8)); putchar(' ');
    for (i = 31, n = 0x80000000; !(n >> i); i--) {}
    putint(i);
    return 0;
}
