/* Variables whose addresses are taken stand in memory: each call and each block has its own.
   Plain C. Status 0. Writes "2 1 | 5 4 3 2 1 15 | 8 9 8". */
int *outer;
void swap(int *a, int *b)
{
    int t;
    t = *a;
    *a = *b;
    *b = t;
}
int chain(int n, int *above)
{
    int here, *p;
    p = &here;
    here = n;
    putint(*p);
    putchar(' ');
    if (n == 1) *above += here;
    else {
        chain(n - 1, &here);
        *above += here;
    }
    return *above;
}
int main()
{
    int x, y, *p;
    x = 1;
    y = 2;
    swap(&x, &y);
    putint(x);
    putchar(' ');
    putint(y);
    putchar(' '); putchar('|'); putchar(' ');
    x = 0;
    putint(chain(5, &x));
    putchar(' '); putchar('|'); putchar(' ');
    x = 8;
    p = &x;
    putint(*p);
    {
        int x;
        x = 9;
        putchar(' ');
        putint(*(&x));
        putchar(' ');
    }
    putint(*p);
    return 0;
}
