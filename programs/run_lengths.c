/* Run lengths of the input, packed into bytes and unpacked again.
   Plain C. Status 8. Reads "aaabccccccccccccd". Writes "3a1b12c1d aaabccccccccccccd". */
unsigned char packed[64];
int main()
{
    unsigned char *p, *q;
    int c, last, n;
    p = packed;
    last = getchar();
    n = 1;
    do {
        c = getchar();
        if (c == last) n++;
        else {
            *p++ = n;
            *p++ = last;
            n = 1;
        }
        last = c;
    } while (c != -1);
    for (q = packed; q < p; q += 2) {
        putint(q[0]);
        putchar(q[1]);
    }
    putchar(' ');
    for (q = packed; q < p; q++)
        for (n = *q++; n > 0; n--) putchar(*q);
    return p - packed;
}
