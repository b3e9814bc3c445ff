/* The best value for a weight of 20,000, of a hundred items, and in how many ways, modulo 2 to the 32. */
int weight[100], value[100];
int best[20001];
int ways[20001];
int main()
{
    int i, w;
    for (i = 0; i < 100; i++) {
        weight[i] = 50 + i * 37 % 400;
        value[i] = 60 + i * 101 % 700;
    }
    for (i = 0; i < 100; i++)
        for (w = 20000; w >= weight[i]; w--)
            if (best[w - weight[i]] + value[i] > best[w]) best[w] = best[w - weight[i]] + value[i];
    ways[0] = 1;
    for (i = 0; i < 100; i++)
        for (w = weight[i]; w <= 20000; w++) ways[w] += ways[w - weight[i]];
    putint(best[20000]);
    putchar(' ');
    putint(ways[20000]);
    putchar('\n');
    return 0;
}
