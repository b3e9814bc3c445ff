/* Results of narrow types are converted as they are returned, also by a call through a pointer.
   Plain C. Status 0. Writes "-56 200 -25536 40000 -56 200 ". */
char c(int n) { return n; }
unsigned char b(int n) { return n; }
short s(int n) { return n; }
unsigned short u(int n) { return n; }
int main()
{
    char (*f)(int);
    unsigned char (*g)(int);
    putint(c(200)); putchar(' ');
    putint(b(456)); putchar(' ');
    putint(s(40000)); putchar(' ');
    putint(u(105536)); putchar(' ');
    f = c;
    g = b;
    putint(f(200)); putchar(' ');
    putint((*g)(456)); putchar(' ');
    return 0;
}
