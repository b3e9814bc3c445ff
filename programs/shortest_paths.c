/* Floyd and Warshall's shortest ways between six places, and one way itself.
   Plain C. Status 0. Writes "0 7 9 20 20 11 | 1 3 6 5". */
int way[6][6], over[6][6];
int edges[27] = {1, 2, 7, 1, 3, 9, 1, 6, 14, 2, 3, 10, 2, 4, 15, 3, 4, 11, 3, 6, 2, 4, 5, 6, 5, 6, 9};
void show(int a, int b)
{
    if (over[a][b]) {
        show(a, over[a][b] - 1);
        show(over[a][b] - 1, b);
        return;
    }
    putchar(' ');
    putint(b + 1);
}
int main()
{
    int i, j, k;
    int *e;
    for (i = 0; i < 6; i++)
        for (j = 0; j < 6; j++) way[i][j] = i == j ? 0 : 1000;
    for (e = edges; e < edges + 27; e += 3) way[e[0] - 1][e[1] - 1] = way[e[1] - 1][e[0] - 1] = e[2];
    for (k = 0; k < 6; k++)
        for (i = 0; i < 6; i++)
            for (j = 0; j < 6; j++)
                if (way[i][k] + way[k][j] < way[i][j]) {
                    way[i][j] = way[i][k] + way[k][j];
                    over[i][j] = k + 1;
                }
    for (j = 0; j < 6; j++) {
        putint(way[0][j]);
        putchar(' ');
    }
    putchar('|');
    putchar(' ');
    putint(1);
    show(0, 4);
    return 0;
}
