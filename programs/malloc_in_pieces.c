/* The heap moves on in multiples of 8: pieces of 8,185 bytes are 8,192 apart, and the 1,025th isn't there.
   Status 0. Writes "1024 8192 0 0". */
int main()
{
    char *p, *last, *first;
    int n;
    first = malloc(8185);
    last = first;
    for (n = 1; p = malloc(8185); n++) {
        if (p - last != 8192) return 1;
        p[8184] = 1;
        last = p;
    }
    putint(n);
    putchar(' ');
    putint((0x10c00000 - (int)first) / n);
    putchar(' ');
    putint((int)p);
    putchar(' ');
    putint(last[0] + last[8185]);
    return 0;
}
