/* Arguments and operands are evaluated from left to right; C leaves that open.
   Status 0. Writes "abc6 de-1 fg8 hi". */
int show(int c)
{
    putchar(c);
    return c - 'a' + 1;
}
int add(int a, int b, int c) { return a + b + c; }
int main()
{
    int a[4];
    putint(add(show('a'), show('b'), show('c')));
    putchar(' ');
    putint(show('d') - show('e'));
    putchar(' ');
    a[show('f') - 5] = show('g') + 1;
    putint(a[1]);
    putchar(' ');
    a[show('h') - 8] += show('i');
    return a[0] - 9;
}
