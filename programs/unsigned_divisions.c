/* Divisions, remainders, comparisons and shifts of unsigned words, and where a sign decides.
   Plain C. Status 0. Writes "2147483647 1 429496729 5 0 -1 1 1 0 1 268435455 -1 1431655765 858993459". */
unsigned top = 0xffffffff;
void number(int n)
{
    putint(n);
    putchar(' ');
}
int main()
{
    int a;
    unsigned b;
    a = -1;
    b = 3;
    number(top / 2);
    number(top % 2);
    number(top / 10);
    number(top % 10);
    number(a / 2);
    number(a % 2);
    number(a / top);
    number(b < a);
    number(b > a);
    number(2147483648u > 2147483647);
    number(top >> 4);
    number(a >> 4);
    number(a / b);
    putint(top / 5);
    return 0;
}
