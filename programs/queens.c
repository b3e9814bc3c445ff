/* Queens on boards of four to seven: how many ways there are.
   Plain C. Status 0. Writes "2 10 4 40 ". */
int at[8];
int is_free(int row, int column)
{
    int r, d;
    for (r = 0; r < row; r++) {
        d = at[r] - column;
        if (d == 0 || d == row - r || d == r - row) return 0;
    }
    return 1;
}
int ways(int row, int n)
{
    int column, found;
    if (row == n) return 1;
    found = 0;
    for (column = 0; column < n; column++)
        if (is_free(row, column)) {
            at[row] = column;
            found += ways(row + 1, n);
        }
    return found;
}
int main()
{
    int n;
    for (n = 4; n < 8; n++) {
        putint(ways(0, n));
        putchar(' ');
    }
    return 0;
}
