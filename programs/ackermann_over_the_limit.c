/* One call more than ackermann_at_the_limit.c has: the 10,382nd active call of `ack` doesn't begin.
   Status 70, trap StackLimit. Writes "". */
int ack(int m, int n)
{
    if (m == 0) return n + 1;
    if (n == 0) return ack(m - 1, 1);
    return ack(m - 1, ack(m, n - 1));
}
int main()
{
    putint(ack(1, 10380));
    ;;;;;;;;;;;;;;;;;;;;;
    return 0;
}
