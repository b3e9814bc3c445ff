/* One call less than stack_before_frame.c has: `big` has room on the stack, and then none for its objects.
   Status 70, trap FrameLimit. Writes "". */
int big()
{
    int a[1048576];
    return 1;
}
int down(int n)
{
    if (n == 0) return big();
    return down(n - 1);
}
int main()
{
    int x;
    int *p;
    p = &x;
    return down(22307);
}
