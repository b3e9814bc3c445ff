/* Eight parameters of all widths: each is converted as the function is entered.
   Plain C. Status 0. Writes "-1 255 -1 65535 -1 2147483647 44 -2147418113\n-128 44 -32768 1 7 1 0 9\n". */
void show(char a, unsigned char b, short c, unsigned short d, int e, unsigned f, char g, int h)
{
    putint(a); putchar(' ');
    putint(b); putchar(' ');
    putint(c); putchar(' ');
    putint(d); putchar(' ');
    putint(e); putchar(' ');
    putint(f / 2); putchar(' ');
    putint(g); putchar(' ');
    putint(h); putchar('\n');
}
int main()
{
    show(-1, -1, -1, -1, -1, -1, 300, 0x8000ffff);
    show(128, 300, 32768, 65537, 7, 3, 256, 9);
    return 0;
}
