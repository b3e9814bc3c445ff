/* A call takes stack as long as it is active: 128 bytes and 48 for each node of its function.
   This one has 22 nodes, so 1,184 bytes a call, and the stack has 16,777,216: the 14,170th call traps.
   Each power of 2 among the depths is written on the way down, and the line is `tick: trap StackLimit`.
   Stage: functions and memory. Status: 70. */
int deep(int n)
{
    if ((n & (n - 1)) == 0) {
        putint(n);
        putchar(' ');
    }
    return deep(n + 1);
}
int main()
{
    return deep(1);
}
