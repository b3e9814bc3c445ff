/* The objects of a call that returned stay readable until another call has them: `f` and `g` have theirs at the same
   addresses, from 0x10c00000 on, behind none of `main`.
   Status 0. Writes "7 1 8 268435456 -1". */
int *kept;
int f(int n)
{
    int x;
    x = n;
    kept = &x;
    return x;
}
int g(int n)
{
    int y, *p;
    p = &y;
    *p = n + 1;
    return (int)p;
}
int none(int n) { return n * 2; }
int main()
{
    f(7);
    none(3);
    putint(*kept);
    putchar(' ');
    putint((int)kept == 0x10c00000);
    putchar(' ');
    g(7);
    putint(*kept);
    putchar(' ');
    putint(g(0) - 0xc00000);
    putchar(' ');
    putint((int)kept - g(0) - 1);
    return 0;
}
