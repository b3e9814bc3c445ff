/* A char is signed: what is read from memory is widened with its sign, and an unsigned char is not.
   Plain C. Status 0. Writes "-56 200 -1 255 -128 0 127 -128 1 0 -2 254 44 44". */
char a[4];
unsigned char b[4];
void number(int n)
{
    putint(n);
    putchar(' ');
}
int main()
{
    char *p;
    unsigned char *q;
    number(a[0] = 200);
    number(b[0] = 200);
    a[1] = -1;
    b[1] = -1;
    number(a[1]);
    number(b[1]);
    a[2] = 127;
    a[2]++;
    number(a[2]);
    b[2] = 255;
    b[2]++;
    number(b[2]);
    number(a[2] -= 1);
    p = a;
    p[3] = 128;
    number(p[3]);
    number(p[3] < 0);
    q = (unsigned char *)p;
    number(q[3] < 0);
    number(a[1] + a[1]);
    number(b[1] + a[1]);
    number(a[0] = b[0] = 300);
    putint(b[0]);
    return 0;
}
