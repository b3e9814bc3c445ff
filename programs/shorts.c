/* Arrays of shorts, signed and unsigned.
   Plain C. Status 0. Writes "-25536 40000 -32768 0 32767 65535 -1 -65536 14464 14464". */
short a[3];
unsigned short b[3];
void number(int n)
{
    putint(n);
    putchar(' ');
}
int main()
{
    short *p;
    number(a[0] = 40000);
    number(b[0] = 40000);
    a[1] = 32767;
    number(++a[1]);
    b[1] = 65535;
    number(++b[1]);
    number(a[1] = a[1] - 1);
    number(b[1] -= 1);
    p = (short *)&b[1];
    number(*p);
    number(*p - b[1]);
    a[2] = b[0] * 2;
    number(a[2]);
    putint(b[2] = b[0] << 1);
    return 0;
}
