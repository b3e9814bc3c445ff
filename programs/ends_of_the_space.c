/* The first and the last byte, half and word of the space may be read and written; so may what no object has.
   Status 0. Writes "1 2 3 -1 -2 -3 0". */
int main()
{
    char *c;
    short *h;
    int *w;
    c = (char *)0x10000000;
    *c = 1;
    putint(*c); putchar(' ');
    h = (short *)0x10000000;
    *h = 2;
    putint(*h); putchar(' ');
    w = (int *)0x10000000;
    *w = 3;
    putint(*w); putchar(' ');
    c = (char *)0x10ffffff;
    *c = -1;
    putint(*c); putchar(' ');
    h = (short *)0x10fffffe;
    *h = -2;
    putint(*h); putchar(' ');
    w = (int *)0x10fffffc;
    *w = -3;
    putint(*w); putchar(' ');
    putint(*(int *)0x10bffffc);
    return 0;
}
