/* The objects of `main` count: `big` has all bytes that there are, and `main` has 4 of them.
   Status 70, trap FrameLimit. Writes "A". */
int big()
{
    int a[1048576];
    putchar('B');
    return a[0];
}
int main()
{
    int x;
    int *p;
    p = &x;
    *p = 65;
    putchar(x);
    return big();
}
