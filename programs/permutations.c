/* All permutations of four letters by exchanges, in recursion; each 5th of them is written.
   Plain C. Status 24. Writes "abcd adbc bdca cadb dcba ". */
char letters[] = "abcd";
int count;
void exchange(int i, int j)
{
    char t;
    t = letters[i];
    letters[i] = letters[j];
    letters[j] = t;
}
void permute(int from)
{
    int i;
    if (from == 4) {
        if (count++ % 5 == 0) {
            for (i = 0; i < 4; i++) putchar(letters[i]);
            putchar(' ');
        }
        return;
    }
    for (i = from; i < 4; i++) {
        exchange(from, i);
        permute(from + 1);
        exchange(from, i);
    }
}
int main()
{
    permute(0);
    return count;
}
