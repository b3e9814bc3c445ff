/* Numbers to text in bases 2 to 36, and back.
   Plain C. Status 0. Writes "11111111 377 ff zz -32768 4294967295 1". */
char room[40];
char *text(unsigned n, int base)
{
    char *p;
    p = room + 39;
    *p = 0;
    do {
        *--p = "0123456789abcdefghijklmnopqrstuvwxyz"[n % base];
        n /= base;
    } while (n);
    return p;
}
unsigned number(char *s, int base)
{
    unsigned n;
    n = 0;
    for (; *s; s++) n = n * base + (*s <= '9' ? *s - '0' : *s - 'a' + 10);
    return n;
}
void say(char *s)
{
    while (*s) putchar(*s++);
    putchar(' ');
}
int main()
{
    int base, good;
    say(text(255, 2));
    say(text(255, 8));
    say(text(255, 16));
    say(text(1295, 36));
    putint((short)number("8000", 16));
    putchar(' ');
    say(text(-1, 10));
    good = 1;
    for (base = 2; base <= 36; base++) good &= number(text(987654321u, base), base) == 987654321;
    putint(good);
    return 0;
}
