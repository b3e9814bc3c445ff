/* The heap has 8,388,608 bytes: `malloc` answers 0 exactly where fewer are left than were asked for, and takes nothing
   then.
   Status 0. Writes "1 1 0 1 1 0 1 0 0 281018368". */
int main()
{
    char *p, *q;
    putint(malloc(8388609) == 0); putchar(' ');
    putint(malloc(0xffffffff) == 0); putchar(' ');
    p = malloc(8388600);
    putint(p == 0); putchar(' ');
    putint(p == (char *)0x10400000); putchar(' ');
    putint(malloc(9) == 0); putchar(' ');
    q = malloc(7);
    putint(q == 0); putchar(' ');
    putint(q - p == 8388600); putchar(' ');
    q[6] = 5;
    putint((int)malloc(1)); putchar(' ');
    putint(q[7]); putchar(' ');
    putint((int)malloc(0));
    return 0;
}
