/* Each variable of a block is set to 0 as its block is entered, registers and objects alike; C leaves that open.
   Status 0. Writes "1 1 1 0 0 0 1 ". */
int again(int n)
{
    int a[3];
    int b;
    a[n]++;
    b += a[0] + a[1] + a[2];
    a[0] = 99;
    return b;
}
int main()
{
    int i;
    for (i = 0; i < 3; i++) {
        int n;
        n++;
        putint(n);
        putchar(' ');
    }
    for (i = 0; i < 3; i++) {
        char c[5];
        putint(c[4] + c[0]);
        putchar(' ');
        c[4] = c[0] = 1;
    }
    again(0);
    putint(again(1));
    putchar(' ');
    return 0;
}
