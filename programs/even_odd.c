/* Two functions that call each other; the second has a prototype.
   Plain C. Status 5. Writes "1001". */
int odd(int n);
int even(int n)
{
    if (n == 0) return 1;
    return odd(n - 1);
}
int odd(int n)
{
    if (n == 0) return 0;
    return even(n - 1);
}
int main()
{
    putint(even(10));
    putint(even(7));
    putint(odd(4));
    putint(odd(999));
    return even(2) + 4;
}
