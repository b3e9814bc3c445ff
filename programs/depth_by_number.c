/* A function that calls itself by its number, as deep as the stack allows, and then by one more. `down` has 16 nodes and
   is charged 896 bytes a call, and `main`, with 8, 512: 18,724 * 896 + 512 is 16,777,216.
   Status 70, trap StackLimit. Writes "18723". */
int down(int n)
{
    if (n == 0) return 0;
    return 1 + ((int (*)(int))1)(n - 1);
}
int main()
{
    putint(down(18723));
    down(18724);
}
