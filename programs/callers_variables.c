/* Fourteen variables of each caller live over its calls: more than the machine has registers for them.
   Plain C. Status 0. Writes "4095 24570". */
int deep(int n)
{
    int a, b, c, d, e, f, g, h, i, j, k, l, m;
    if (n == 0) return 0;
    a = n; b = a + a; c = b + b; d = c + c; e = d + d; f = e + e; g = f + f;
    h = g + g; i = h + h; j = i + i; k = j + j; l = k + k;
    m = deep(n - 1);
    return a + b + c + d + e + f + g + h + i + j + k + l + m;
}
int main()
{
    int x, y;
    x = deep(1);
    y = deep(3);
    putint(x);
    putchar(' ');
    putint(y);
    return 0;
}
