/* An assigning operator reads the old value before its right operand is evaluated, and a store evaluates its place
   before its value; C leaves both open.
   Status 0. Writes "15 105 3 0 9". */
int x;
int a[2];
int i;
int change()
{
    x = 100;
    return 5;
}
int move()
{
    i = 1;
    return 3;
}
int main()
{
    x = 10;
    x += change();
    putint(x);
    putchar(' ');
    x = 10;
    x = change() + x;
    putint(x);
    putchar(' ');
    a[i] = move();
    putint(a[0]);
    putchar(' ');
    putint(a[1]);
    putchar(' ');
    i = 0;
    a[0] = 6;
    a[i] += move();
    putint(a[0]);
    return a[1];
}
