/* A hash table of numbers' decimal digits with chains: 40,000 words, of which 4,001 differ, are counted. */
int *buckets[1024];
int words, most;
unsigned hash(char *s)
{
    unsigned h;
    for (h = 5381; *s; s++) h = h * 33 ^ *s;
    return h % 1024;
}
int same(char *a, char *b)
{
    while (*a && *a == *b) {
        a++;
        b++;
    }
    return *a == *b;
}
char *spelled(unsigned n)
{
    char digits[12];
    char *word, *at;
    int i;
    i = 0;
    do digits[i++] = '0' + n % 10; while (n /= 10);
    word = at = malloc(i + 1);
    while (i) *at++ = digits[--i];
    *at = 0;
    return word;
}
void count(char *word)
{
    int *p;
    unsigned h;
    h = hash(word);
    for (p = buckets[h]; p; p = (int *)p[2])
        if (same((char *)p[0], word)) {
            if (++p[1] > most) most = p[1];
            return;
        }
    p = malloc(3 * sizeof(int));
    p[0] = (int)word;
    p[1] = 1;
    p[2] = (int)buckets[h];
    buckets[h] = p;
    words++;
}
int main()
{
    unsigned i;
    for (i = 0; i < 40000; i++) count(spelled(i * 7919 % 4001));
    putint(words);
    putchar(' ');
    putint(most);
    putchar('\n');
    return 0;
}
