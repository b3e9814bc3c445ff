/* The towers of Hanoi: a function without a value that calls itself twice.
   Plain C. Status 0. Writes "AC AB CB AC BA BC AC 1023". */
int moves;
void move(int n, int from, int to, int over)
{
    if (n == 0) return;
    move(n - 1, from, over, to);
    moves++;
    if (moves <= 7) {
        putchar(from);
        putchar(to);
        putchar(' ');
    }
    move(n - 1, over, to, from);
}
int main()
{
    move(3, 'A', 'C', 'B');
    moves = 8;
    move(10, 'A', 'C', 'B');
    putint(moves - 8);
    return 0;
}
