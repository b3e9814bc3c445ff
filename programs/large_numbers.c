/* Numbers of many digits, one a char: the factorial of 30 and a power of 2.
   Plain C. Status 0. Writes "265252859812191058636308480000000 1267650600228229401496703205376". */
char digits[80];
int used;
void times(int by)
{
    int i, carry;
    carry = 0;
    for (i = 0; i < used; i++) {
        carry += digits[i] * by;
        digits[i] = carry % 10;
        carry /= 10;
    }
    for (; carry; carry /= 10) digits[used++] = carry % 10;
}
void show()
{
    int i;
    for (i = used; i-- > 0; ) putchar('0' + digits[i]);
}
int main()
{
    int n;
    digits[0] = used = 1;
    for (n = 2; n <= 30; n++) times(n);
    show();
    putchar(' ');
    digits[0] = used = 1;
    for (n = 0; n < 100; n++) times(2);
    show();
    return 0;
}
