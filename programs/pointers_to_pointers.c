/* Pointers to pointers, and an array of rows of different lengths.
   Plain C. Status 0. Writes "7 8 9 | 0 01 012 0123 | 34". */
int x, y;
int *rows[4];
void aim(int **p, int *to) { *p = to; }
int main()
{
    int *p, **q, ***r;
    int i, j, s;
    x = 7;
    p = &x;
    q = &p;
    r = &q;
    putint(***r);
    putchar(' ');
    **r = &y;
    *p = 8;
    putint(y);
    putchar(' ');
    aim(*r, &x);
    **q = 9;
    putint(x);
    putchar(' '); putchar('|'); putchar(' ');
    for (i = 0; i < 4; i++) {
        rows[i] = malloc((i + 1) * sizeof(int));
        for (j = 0; j <= i; j++) rows[i][j] = j;
    }
    q = rows;
    s = 0;
    for (i = 0; i < 4; i++, q++) {
        for (j = 0; j <= i; j++) {
            putint((*q)[j]);
            s = s + q[0][j];
        }
        putchar(' ');
    }
    putchar('|');
    putchar(' ');
    putint(s + (q - rows) * 6);
    return 0;
}
