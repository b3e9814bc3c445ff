/* A pointer to a function is its number, counted from 1 in the order of the text: where a function is defined counts,
   not where its prototype stands.
   Status 0. Writes "12345 -9 1". */
int third(int n);
int first() { return 1; }
int second(int a, int b) { return a + b; }
int third(int n) { return n; }
int fourth(int a, int b, int c) { return a * b * c; }
void fifth() { putint(5); }
int main()
{
    putint(((int (*)())1)());
    putint(((int (*)())2)(1, 1));
    putint(((int (*)(int))3)(3));
    putint(((int (*)())4)(2, 1, 2));
    ((void (*)())5)();
    putchar(' ');
    putint(((int (*)())3)(-9));
    putchar(' ');
    putint((int)first == 1 && (int)third == 3 && (int)main == 6);
    return 0;
}
