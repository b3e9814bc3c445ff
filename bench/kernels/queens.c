/* Queens on a board of nine: how many ways there are. */
int at[9];
int is_free(int row, int column)
{
    int r, d;
    for (r = 0; r < row; r++) {
        d = at[r] - column;
        if (d == 0 || d == row - r || d == r - row) return 0;
    }
    return 1;
}
int ways(int row, int n)
{
    int column, found;
    if (row == n) return 1;
    found = 0;
    for (column = 0; column < n; column++)
        if (is_free(row, column)) {
            at[row] = column;
            found += ways(row + 1, n);
        }
    return found;
}
int main()
{
    putint(ways(0, 9));
    putchar('\n');
    return 0;
}
