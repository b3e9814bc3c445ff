/* Pointers to arrays, arrays of arrays of arrays, and the sizes of each.
   Plain C. Status 0. Writes "96 24 8 | 123 23 | 5 121". */
int cube[4][3][2];
int (*pick(int n))[2] { return cube[n]; }
void number(int n)
{
    putint(n);
    putchar(' ');
}
int main()
{
    int i, j, k, s;
    int (*rows)[3][2];
    number(sizeof(int[4][3][2]));
    number((int)(cube + 1) - (int)cube);
    number((int)(cube[0] + 1) - (int)cube[0]);
    putchar('|');
    putchar(' ');
    for (i = 0; i < 4; i++)
        for (j = 0; j < 3; j++)
            for (k = 0; k < 2; k++) cube[i][j][k] = 100 * i + 10 * j + k;
    number(pick(1)[2][1] + 2);
    rows = &cube[2];
    rows -= 2;
    number((*rows)[2][1] + 2);
    putchar('|');
    putchar(' ');
    number(sizeof(char *) + sizeof(unsigned char));
    s = 0;
    for (i = 0; i < 3; i++) s += *(*(*(rows + 1) + i) + 1);
    putint(s - 212);
    return 0;
}
