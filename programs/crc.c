/* The CRC-32 of a string and of 256 bytes, by a table that the program makes.
   Plain C. Status 0. Writes "cbf43926 29058c73". */
unsigned table[256];
unsigned char bytes[256];
void make()
{
    unsigned n, c;
    int k;
    for (n = 0; n < 256; n++) {
        c = n;
        for (k = 0; k < 8; k++) c = c & 1 ? 0xedb88320 ^ c >> 1 : c >> 1;
        table[n] = c;
    }
}
unsigned crc(unsigned char *p, int n)
{
    unsigned c;
    c = ~0u;
    while (n--) c = table[(c ^ *p++) & 255] ^ c >> 8;
    return ~c;
}
void hexadecimal(unsigned n)
{
    int shift;
    for (shift = 28; shift >= 0; shift -= 4) putchar("0123456789abcdef"[n >> shift & 15]);
}
int main()
{
    int i;
    make();
    hexadecimal(crc((unsigned char *)"123456789", 9));
    putchar(' ');
    for (i = 0; i < 256; i++) bytes[i] = i;
    hexadecimal(crc(bytes, 256));
    return 0;
}
