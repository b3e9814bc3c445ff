/* The game of life on a torus of chars: a glider is back after 32 turns, one after the other of its four forms.
   Plain C. Status 5. Writes ".#......\n..#.....\n###.....\n........\n". */
char board[2][8][8];
int around(char (*b)[8], int y, int x)
{
    int i, j, n;
    n = 0;
    for (i = -1; i < 2; i++)
        for (j = -1; j < 2; j++)
            if (i || j) n += b[(y + i) & 7][(x + j) & 7];
    return n;
}
void turn(char from[8][8], char to[8][8])
{
    int y, x, n;
    for (y = 0; y < 8; y++)
        for (x = 0; x < 8; x++) {
            n = around(from, y, x);
            to[y][x] = n == 3 || n == 2 && from[y][x];
        }
}
int main()
{
    int i, y, x, n;
    board[0][0][1] = board[0][1][2] = 1;
    board[0][2][0] = board[0][2][1] = board[0][2][2] = 1;
    for (i = 0; i < 32; i++) turn(board[i % 2], board[1 - i % 2]);
    n = 0;
    for (y = 0; y < 8; y++)
        for (x = 0; x < 8; x++) {
            n += board[0][y][x];
            if (y < 4) {
                putchar(board[0][y][x] ? '#' : '.');
                if (x == 7) putchar('\n');
            }
        }
    return n;
}
