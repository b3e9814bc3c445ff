/* Narrow parameters whose addresses are taken stand in memory, converted, and are changed there.
   Plain C. Status 0. Writes "-56 200 -25536 40000 -57 201 -25535 40001 ". */
void show(char *a, unsigned char *b, short *c, unsigned short *d)
{
    putint(*a); putchar(' ');
    putint(*b); putchar(' ');
    putint(*c); putchar(' ');
    putint(*d); putchar(' ');
}
void pass(char a, unsigned char b, short c, unsigned short d)
{
    show(&a, &b, &c, &d);
    a--;
    ++b;
    c += 1;
    d = d + 1;
    show(&a, &b, &c, &d);
}
int main()
{
    pass(200, 456, 40000, 105536);
    return 0;
}
