/* depth_at_the_limit.c with one node more in `main`: the charges at the same depth are 48 bytes over the limit.
   Status 70, trap StackLimit. Writes "19781". */
int down(int n)
{
    if (n == 0) return 0;
    return 1 + down(n - 1);
}
int main()
{
    putint(down(19781));
    putint(down(19782));
    ;;;;;;;;;;;;;
    return 0;
}
