/* Reads to the end by recursion, and writes each byte on the way back.
   Plain C. Status 5. Reads "abcde". Writes "edcba". */
int back()
{
    int c, n;
    c = getchar();
    if (c == -1) return 0;
    n = back();
    putchar(c);
    return n + 1;
}
int main() { return back(); }
