/* One call more than frames_at_the_limit.c has.
   Status 70, trap FrameLimit. Writes "". */
int sum(int n)
{
    int a[1024];
    a[1023] = n;
    if (n == 1) return a[1023] + a[0];
    return sum(n - 1) + a[1023] + a[0];
}
int main()
{
    putint(sum(1025));
    return 0;
}
