/* `main` may be called like any other function.
   Plain C. Status 6. Writes "123456". */
int n;
int main()
{
    n++;
    putint(n);
    if (n < 6) return main();
    return n;
}
