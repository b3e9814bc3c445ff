/* `down` has 15 nodes and is charged 848 bytes, and `main`, with 23, 1,232: 19,783 * 848 + 1,232 is 16,777,216.
   Then the same depth again: what returned is no longer charged.
   Plain C. Status 0. Writes "19782". */
int down(int n)
{
    if (n == 0) return 0;
    return 1 + down(n - 1);
}
int main()
{
    down(19782);
    putint(down(19782));
    ;;;;;;;;;;;;;
    return 0;
}
