/* Mutual recursion as deep as the stack allows. `even` and `odd` have 13 nodes each and are charged 752 bytes a call,
   and `main`, with 15, 848: 22,309 * 752 + 848 is 16,777,216.
   Plain C. Status 0. Writes "1". */
int odd(int n);
int even(int n)
{
    if (n == 0) return 1;
    return odd(n - 1);
}
int odd(int n)
{
    if (n == 0) return 0;
    return even(n - 1);
}
int main()
{
    putint(even(22308));
    ;;;;;;;;
    return 0;
}
