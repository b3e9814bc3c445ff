/* Where a call is over both limits, StackLimit is told. `main` has 9 nodes, is charged 560 bytes and has an object;
   `down` has 13 nodes and 752 bytes a call; `big` has 4 nodes, 320 bytes, and objects of all bytes that there are.
   22,309 calls of `down` leave 288 bytes.
   Status 70, trap StackLimit. Writes "". */
int big()
{
    int a[1048576];
    return 1;
}
int down(int n)
{
    if (n == 0) return big();
    return down(n - 1);
}
int main()
{
    int x;
    int *p;
    p = &x;
    return down(22308);
}
