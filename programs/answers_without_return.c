/* A function that runs off its end, or ends by `return;`, answers 0.
   Status 0. Writes "0005". */
int off(int n) { n = n + 1; }
int bare(int n) { if (n) return n; return; }
int both(int n)
{
    if (n > 3) return 5;
    while (n) n--;
}
int main()
{
    putint(off(7));
    putint(bare(0));
    putint(both(2));
    putint(both(4));
}
