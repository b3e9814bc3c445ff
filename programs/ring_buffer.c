/* A queue in a ring: breadth-first search in a maze, for the length of the way to the E and beyond.
   Plain C. Status 13. Writes "10". */
char *maze[7] = {
    "#########",
    "#S..#...#",
    "#.#.#.#.#",
    "#.#...#.#",
    "#.#####.#",
    "#......E#",
    "#########"
};
int distance[7][9];
int ring[8];
int first, count;
int steps[4] = {-9, -1, 1, 9};
void put(int at, int d)
{
    if ((&distance[0][0])[at]) return;
    (&distance[0][0])[at] = d;
    ring[(first + count++) % 8] = at;
}
int take()
{
    int at;
    at = ring[first];
    first = (first + 1) % 8;
    count--;
    return at;
}
int main()
{
    int at, next, i;
    put(10, 1);
    while (count) {
        at = take();
        for (i = 0; i < 4; i++) {
            next = at + steps[i];
            if (maze[next / 9][next % 9] != '#') put(next, (&distance[0][0])[at] + 1);
        }
    }
    putint(distance[5][7] - 1);
    return distance[3][7];
}
