/* A table of best values for each weight, from two tables of the items.
   Plain C. Status 0. Writes "220 9 0". */
int weight[] = {10, 20, 30, 0};
int value[] = {60, 100, 120};
int best[51];
int coins[5] = {1, 5, 10, 25, 50};
int ways[101];
int main()
{
    int i, w;
    for (i = 0; weight[i]; i++)
        for (w = 50; w >= weight[i]; w--)
            if (best[w - weight[i]] + value[i] > best[w]) best[w] = best[w - weight[i]] + value[i];
    putint(best[50]);
    putchar(' ');
    ways[0] = 1;
    for (i = 0; i < 5; i++)
        for (w = coins[i]; w <= 100; w++) ways[w] += ways[w - coins[i]];
    putint(ways[20]);
    putchar(' ');
    putint(ways[100] - 292);
    return 0;
}
