/* Floyd and Warshall's shortest ways between a hundred places: the sum of their lengths. */
int way[100][100];
int main()
{
    int i, j, k, sum;
    unsigned seed;
    seed = 1;
    for (i = 0; i < 100; i++)
        for (j = 0; j < 100; j++) {
            seed = seed * 1103515245 + 12345;
            way[i][j] = i == j ? 0 : (int)((seed >> 16) % 1000) + 1;
        }
    for (k = 0; k < 100; k++)
        for (i = 0; i < 100; i++)
            for (j = 0; j < 100; j++)
                if (way[i][k] + way[k][j] < way[i][j]) way[i][j] = way[i][k] + way[k][j];
    sum = 0;
    for (i = 0; i < 100; i++)
        for (j = 0; j < 100; j++) sum += way[i][j];
    putint(sum);
    putchar('\n');
    return 0;
}
