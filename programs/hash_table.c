/* A hash table of words with chains: it counts how often each comes.
   Plain C. Status 4. Reads "to-be-or-not-to-be-". Writes "to:2 be:2 or:1 not:1 ". */
char text[256];
int used;
int *buckets[16];
int *order[32];
int words;
unsigned hash(char *s)
{
    unsigned h;
    for (h = 5381; *s; s++) h = h * 33 ^ *s;
    return h % 16;
}
int same(char *a, char *b)
{
    while (*a && *a == *b) {
        a++;
        b++;
    }
    return *a == *b;
}
void count(char *word)
{
    int *p;
    unsigned h;
    h = hash(word);
    for (p = buckets[h]; p; p = (int *)p[2])
        if (same((char *)p[0], word)) {
            p[1]++;
            return;
        }
    p = malloc(3 * sizeof(int));
    p[0] = (int)word;
    p[1] = 1;
    p[2] = (int)buckets[h];
    buckets[h] = p;
    order[words++] = p;
}
int main()
{
    int c, i, start = 0;
    char *s;
    while ((c = getchar()) != -1) {
        if (c == '-') {
            text[used++] = 0;
            count(text + start);
            start = used;
        } else text[used++] = c;
    }
    for (i = 0; i < words; i++) {
        for (s = (char *)order[i][0]; *s; s++) putchar(*s);
        putchar(':');
        putint(order[i][1]);
        putchar(' ');
    }
    return words;
}
