/* Ackermann's function: a call whose argument is a call of the same function.
   Plain C. Status 0. Writes "9 61 125\n". */
int ack(int m, int n)
{
    if (m == 0) return n + 1;
    if (n == 0) return ack(m - 1, 1);
    return ack(m - 1, ack(m, n - 1));
}
int main()
{
    putint(ack(2, 3));
    putchar(' ');
    putint(ack(3, 3));
    putchar(' ');
    putint(ack(3, 4));
    putchar('\n');
    return 0;
}
