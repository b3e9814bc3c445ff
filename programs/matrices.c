/* Matrices as arrays of arrays: a product, and a power of Fibonacci's matrix.
   Plain C. Status 0. Writes "30 36 42 66 81 96 102 126 150 | 832040". */
int numbers[9] = {1, 2, 3, 4, 5, 6, 7, 8, 9};
int a[3][3];
int b[3][3];
void multiply(int x[3][3], int y[][3], int (*z)[3])
{
    int i, j, k, s;
    for (i = 0; i < 3; i++)
        for (j = 0; j < 3; j++) {
            s = 0;
            for (k = 0; k < 3; k++) s += x[i][k] * y[k][j];
            z[i][j] = s;
        }
}
int power(int n)
{
    int f[2][2], g[2][2];
    int i, j, m;
    f[0][0] = f[0][1] = f[1][0] = 1;
    f[1][1] = 0;
    for (m = 1; m < n; m++) {
        for (i = 0; i < 2; i++)
            for (j = 0; j < 2; j++)
                g[i][j] = f[i][0] + (j ? 0 : f[i][1]);
        for (i = 0; i < 4; i++) (&f[0][0])[i] = (&g[0][0])[i];
    }
    return f[0][1];
}
int main()
{
    int i;
    for (i = 0; i < 9; i++) a[i / 3][i % 3] = numbers[i];
    multiply(a, a, b);
    for (i = 0; i < 9; i++) {
        putint(*(*b + i));
        putchar(' ');
    }
    putchar('|');
    putchar(' ');
    putint(power(30));
    return 0;
}
