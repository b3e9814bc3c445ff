/* The first byte of a word is its highest, in globals, in frame objects and on the heap.
   Status 0. Writes "1 2 3 4 | 258 772 | 16908291 | -2 254 -257 | 5 0 0 1". */
int word = 0x01020304;
unsigned char bytes[4] = {1, 2, 0, 3};
void number(int n)
{
    putint(n);
    putchar(' ');
}
void bar()
{
    putchar('|');
    putchar(' ');
}
int main()
{
    char *c;
    short *h;
    int x, *p;
    c = (char *)&word;
    number(c[0]); number(c[1]); number(c[2]); number(c[3]);
    bar();
    h = (short *)c;
    number(h[0]); number(h[1]);
    bar();
    number(*(int *)bytes);
    bar();
    x = -257;
    c = (char *)&x;
    number(c[2]);
    number(*(unsigned char *)(c + 2));
    number(x);
    bar();
    p = malloc(4);
    *(short *)p = 0x0500;
    c = (char *)p;
    c[3] = 1;
    number(c[0]); number(c[1]); number(c[2]);
    putint(c[3]);
    return 0;
}
