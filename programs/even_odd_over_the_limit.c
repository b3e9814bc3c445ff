/* One call more than even_odd_at_the_limit.c has.
   Status 70, trap StackLimit. Writes "". */
int odd(int n);
int even(int n)
{
    if (n == 0) return 1;
    return odd(n - 1);
}
int odd(int n)
{
    if (n == 0) return 0;
    return even(n - 1);
}
int main()
{
    putint(even(22309));
    ;;;;;;;;
    return 0;
}
