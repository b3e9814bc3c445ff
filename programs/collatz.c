/* The longest chain below 300, with lengths remembered in an array of shorts.
   Plain C. Status 231. Writes "231 128". */
unsigned short known[300];
int length(unsigned n)
{
    int l;
    if (n == 1) return 1;
    if (n < 300 && known[n]) return known[n];
    l = 1 + length(n & 1 ? 3 * n + 1 : n / 2);
    if (n < 300) known[n] = l;
    return l;
}
int main()
{
    int n, best;
    best = 1;
    for (n = 2; n < 300; n++)
        if (length(n) > length(best)) best = n;
    putint(best);
    putchar(' ');
    putint(length(best));
    return best;
}
