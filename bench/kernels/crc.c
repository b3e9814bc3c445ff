/* The CRC-32 of a million bytes, by a table that the program makes. */
unsigned table[256];
unsigned char bytes[1000000];
void make()
{
    unsigned n, c;
    int k;
    for (n = 0; n < 256; n++) {
        c = n;
        for (k = 0; k < 8; k++) c = c & 1 ? 0xedb88320 ^ c >> 1 : c >> 1;
        table[n] = c;
    }
}
unsigned crc(unsigned char *p, int n)
{
    unsigned c;
    c = ~0u;
    while (n--) c = table[(c ^ *p++) & 255] ^ c >> 8;
    return ~c;
}
void hexadecimal(unsigned n)
{
    int shift;
    for (shift = 28; shift >= 0; shift -= 4) putchar("0123456789abcdef"[n >> shift & 15]);
}
int main()
{
    int i;
    make();
    for (i = 0; i < 1000000; i++) bytes[i] = i;
    hexadecimal(crc(bytes, 1000000));
    putchar('\n');
    return 0;
}
