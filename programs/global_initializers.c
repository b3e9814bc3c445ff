/* Globals of each width with initializers: lists, some of them shorter than the array, strings as arrays and as
   pointers, constant expressions; an array of arrays begins as 0.
   Plain C. Status 0. Writes "-1 255 -32768 65535 -2147483648 2147483647 65 | 123456 700 0 0 | abc de 3 0 | 5 60 9 1". */
char c = 255;
unsigned char uc = -1;
short s = 0x8000;
unsigned short us = -1;
int i = -2147483647 - 1;
unsigned u = 0xfffffffe;
int ch = 'A';
int six[6] = {1, 2, 3, 4, 5, 6,};
int nested[2][3];
int part[4] = {7};
char text[] = "abc";
char pair[5] = {'d', 0, '\0', 'e'};
char *pointer = "de";
int sized[] = {sizeof(int[3][5]), (1 << 3) | 1, 3 > 2, -(-5), (char)256};
void number(int n)
{
    putint(n);
    putchar(' ');
}
void bar()
{
    putchar('|');
    putchar(' ');
}
int main()
{
    int a, b;
    number(c);
    number(uc);
    number(s);
    number(us);
    number(i);
    number(u >> 1);
    number(ch);
    bar();
    for (a = 0; a < 2; a++)
        for (b = 0; b < 3; b++) putint(six[3 * a + b] + nested[a][b]);
    putchar(' ');
    number(part[0] * 100);
    number(part[1] + part[2]);
    number(part[3]);
    bar();
    for (a = 0; text[a]; a++) putchar(text[a]);
    putchar(' ');
    putchar(pointer[0]);
    putchar(pair[3]);
    putchar(' ');
    number(a);
    number(pointer[2]);
    bar();
    number(sized[3]);
    number(sized[0]);
    number(sized[1]);
    putint(sized[2] + sized[4] + pair[4]);
    return 0;
}
