/* A piece begins at a multiple of 8, `malloc(0)` takes nothing, and what is there is 0.
   Status 0. Writes "0 8 8 16 24 40 0". */
int main()
{
    int a, i, s;
    char *p;
    a = (int)malloc(0);
    putint((int)malloc(1) - a); putchar(' ');
    putint((int)malloc(0) - a); putchar(' ');
    putint((int)malloc(8) - a); putchar(' ');
    putint((int)malloc(7) - a); putchar(' ');
    putint((int)malloc(9) - a); putchar(' ');
    p = malloc(100);
    putint((int)p - a); putchar(' ');
    s = 0;
    for (i = 0; i < 100; i++) s |= p[i];
    putint(s);
    return 0;
}
