/* The usual functions on strings, in their shortest forms.
   Plain C. Status 0. Writes "5 0 -1 1 hello, world dlrow ,olleh 7 -1 12". */
char room[64];
int length(char *s)
{
    char *p;
    for (p = s; *p; p++) {}
    return p - s;
}
char *copy(char *to, char *from)
{
    char *p;
    p = to;
    while (*p++ = *from++) {}
    return to;
}
char *append(char *to, char *from)
{
    copy(to + length(to), from);
    return to;
}
int compare(char *a, char *b)
{
    for (; *a == *b; a++, b++)
        if (!*a) return 0;
    return *a < *b ? -1 : 1;
}
int index_of(char *s, int c)
{
    int i;
    for (i = 0; s[i]; i++)
        if (s[i] == c) return i;
    return -1;
}
void reverse(char *s)
{
    char *e;
    char t;
    for (e = s + length(s) - 1; s < e; s++, e--) {
        t = *s;
        *s = *e;
        *e = t;
    }
}
void write(char *s)
{
    while (*s) putchar(*s++);
    putchar(' ');
}
void number(int n)
{
    putint(n);
    putchar(' ');
}
int main()
{
    number(length("hello"));
    number(compare("abc", "abc"));
    number(compare("abc", "abd"));
    number(compare("abcd", "abc"));
    write(append(append(copy(room, "hello"), ", "), "world"));
    reverse(room);
    write(room);
    number(index_of("hello, world", 'w'));
    number(index_of(room, 'x'));
    putint(length(room));
    return 0;
}
