/* Eight arguments that change their places in each call.
   Plain C. Status 0. Writes "45678123 24681357 4567123". */
int turn(int n, int a, int b, int c, int d, int e, int f, int g)
{
    if (n == 0)
        return a * 1000000 + b * 100000 + c * 10000 + d * 1000 + e * 100 + f * 10 + g;
    return turn(n - 1, b, c, d, e, f, g, a);
}
int last(int a, int b, int c, int d, int e, int f, int g, int h)
{
    return ((((((a * 10 + b) * 10 + c) * 10 + d) * 10 + e) * 10 + f) * 10 + g) * 10 + h;
}
int main()
{
    putint(last(4, 5, 6, 7, 8, 1, 2, 3)); putchar(' ');
    putint(last(2, 4, 6, 8, 1, 3, 5, 7)); putchar(' ');
    putint(turn(10, 1, 2, 3, 4, 5, 6, 7));
    return 0;
}
