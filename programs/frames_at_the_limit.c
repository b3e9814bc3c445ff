/* Frame objects of 4,096 bytes a call: 1,024 calls have 4,194,304 bytes, all that there is.
   Plain C. Status 0. Writes "524800". */
int sum(int n)
{
    int a[1024];
    a[1023] = n;
    if (n == 1) return a[1023] + a[0];
    return sum(n - 1) + a[1023] + a[0];
}
int main()
{
    putint(sum(1024));
    return 0;
}
