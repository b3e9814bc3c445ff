/* Ackermann's function as deep as the stack allows. `ack` has 31 nodes and is charged 128 + 48 * 31 = 1,616 bytes, and
   `main`, with 29, 1,520. At its deepest `ack(1, n)` has n + 2 calls active: 10,381 * 1,616 + 1,520 is 16,777,216.
   Plain C. Status 0. Writes "10381". */
int ack(int m, int n)
{
    if (m == 0) return n + 1;
    if (n == 0) return ack(m - 1, 1);
    return ack(m - 1, ack(m, n - 1));
}
int main()
{
    putint(ack(1, 10379));
    ;;;;;;;;;;;;;;;;;;;;;
    return 0;
}
