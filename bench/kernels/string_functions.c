/* The usual functions on strings, in their shortest forms, on strings of up to 4,000 chars. */
char room[5000];
char other[5000];
int length(char *s)
{
    char *p;
    for (p = s; *p; p++) {}
    return p - s;
}
char *copy(char *to, char *from)
{
    char *p;
    p = to;
    while (*p++ = *from++) {}
    return to;
}
char *append(char *to, char *from)
{
    copy(to + length(to), from);
    return to;
}
int compare(char *a, char *b)
{
    for (; *a == *b; a++, b++)
        if (!*a) return 0;
    return *a < *b ? -1 : 1;
}
int index_of(char *s, int c)
{
    int i;
    for (i = 0; s[i]; i++)
        if (s[i] == c) return i;
    return -1;
}
void reverse(char *s)
{
    char *e;
    char t;
    for (e = s + length(s) - 1; s < e; s++, e--) {
        t = *s;
        *s = *e;
        *e = t;
    }
}
int main()
{
    int turn, sum;
    sum = 0;
    for (turn = 0; turn < 400; turn++) {
        append(room, "ten chars.");
        copy(other, room);
        reverse(other);
        sum += compare(room, other) + index_of(other, 't');
        reverse(other);
        sum += compare(room, other) + length(other);
    }
    putint(sum);
    putchar('\n');
    return 0;
}
