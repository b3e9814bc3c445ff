/* `exit` ends the run from five calls below `main`; its argument is taken modulo 256.
   Plain C. Status 44. Writes "543210". */
int down(int n)
{
    putint(n);
    if (n == 0) exit(300);
    down(n - 1);
    putchar('!');
    return n;
}
int main()
{
    down(5);
    putchar('?');
    return 1;
}
