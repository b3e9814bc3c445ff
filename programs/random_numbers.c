/* A generator of random words by shifts (xorshift), and a shuffle of a deck with it.
   Plain C. Status 0. Writes "723471715 -1797600390 2064144800 | 1". */
unsigned state = 2463534242u;
unsigned char deck[52];
unsigned next()
{
    state ^= state << 13;
    state ^= state >> 17;
    state ^= state << 5;
    return state;
}
int main()
{
    int i, j, t, sum;
    for (i = 0; i < 3; i++) {
        putint(next());
        putchar(' ');
    }
    for (i = 0; i < 52; i++) deck[i] = i;
    for (i = 51; i > 0; i--) {
        j = next() % (i + 1);
        t = deck[i];
        deck[i] = deck[j];
        deck[j] = t;
    }
    sum = 0;
    for (i = 0; i < 52; i++) sum += deck[i];
    putchar('|');
    putchar(' ');
    putint(sum == 51 * 26 && deck[0] != deck[51]);
    return 0;
}
