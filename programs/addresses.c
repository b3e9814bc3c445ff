/* Where things stand: globals in the order of the text, each from a multiple of 4, then strings; frame objects of a
   call, parameters first; the heap.
   Status 0. Writes "268435456 1 4 8 12 20 24 | 281018368 4 8 12 20 | 272629760 8". */
char a = 1;
int b;
char c[3];
short d[3];
char *e = "s";
void number(int n)
{
    putint(n);
    putchar(' ');
}
void frame(char p, int q)
{
    int x;
    char s[5];
    int *y;
    int z;
    number((int)&p);
    number((int)&q - (int)&p);
    number((int)&x - (int)&p);
    number((int)s - (int)&p);
    y = &z;
    number((int)y - (int)&p);
}
int main()
{
    int m;
    number((int)&a);
    number(*(char *)0x10000000);
    number((int)&b - (int)&a);
    number((int)c - (int)&a);
    number((int)d - (int)&a);
    number((int)&e - (int)&a);
    number((int)e - (int)&a);
    putchar('|');
    putchar(' ');
    frame(1, 2);
    putchar('|');
    putchar(' ');
    m = (int)malloc(3);
    number(m);
    putint((int)malloc(1) - m);
    return 0;
}
