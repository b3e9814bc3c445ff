/* The game of life on a torus of 64 by 64 chars, 60 turns: how many live at the end. */
char board[2][64][64];
int around(char (*b)[64], int y, int x)
{
    int i, j, n;
    n = 0;
    for (i = -1; i < 2; i++)
        for (j = -1; j < 2; j++)
            if (i || j) n += b[(y + i) & 63][(x + j) & 63];
    return n;
}
void turn(char from[64][64], char to[64][64])
{
    int y, x, n;
    for (y = 0; y < 64; y++)
        for (x = 0; x < 64; x++) {
            n = around(from, y, x);
            to[y][x] = n == 3 || n == 2 && from[y][x];
        }
}
int main()
{
    int i, y, x, n;
    unsigned seed;
    seed = 1;
    for (y = 0; y < 64; y++)
        for (x = 0; x < 64; x++) {
            seed = seed * 1103515245 + 12345;
            board[0][y][x] = (seed >> 16) % 3 == 0;
        }
    for (i = 0; i < 60; i++) turn(board[i % 2], board[1 - i % 2]);
    n = 0;
    for (y = 0; y < 64; y++)
        for (x = 0; x < 64; x++) n += board[0][y][x];
    putint(n);
    putchar('\n');
    return 0;
}
