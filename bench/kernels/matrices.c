/* The third power of a matrix of 80 rows, and the sum of its numbers. */
int a[80][80];
int b[80][80];
int c[80][80];
void multiply(int x[80][80], int y[][80], int (*z)[80])
{
    int i, j, k, s;
    for (i = 0; i < 80; i++)
        for (j = 0; j < 80; j++) {
            s = 0;
            for (k = 0; k < 80; k++) s += x[i][k] * y[k][j];
            z[i][j] = s;
        }
}
int main()
{
    int i, j, sum;
    for (i = 0; i < 80; i++)
        for (j = 0; j < 80; j++) a[i][j] = (i * 7 + j * 13) % 17 - 8;
    multiply(a, a, b);
    multiply(a, b, c);
    sum = 0;
    for (i = 0; i < 80; i++)
        for (j = 0; j < 80; j++) sum += c[i][j] * (i - j);
    putint(sum);
    putchar('\n');
    return 0;
}
