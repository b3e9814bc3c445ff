/* A table of functions, called by an index that the input gives.
   Plain C. Status 0. Reads "3+4,9-5,6*7,9/2,8%3,". Writes "7 4 42 4 2 ". */
int add(int a, int b) { return a + b; }
int subtract(int a, int b) { return a - b; }
int times(int a, int b) { return a * b; }
int over(int a, int b) { return a / b; }
int rest(int a, int b) { return a % b; }
int (*table[5])(int, int);
char signs[] = "+-*/%";
int main()
{
    int a, b, c, i;
    table[0] = add;
    table[1] = subtract;
    table[2] = times;
    table[3] = over;
    table[4] = rest;
    while ((a = getchar()) != -1) {
        c = getchar();
        b = getchar();
        getchar();
        for (i = 0; signs[i] != c; i++) {}
        putint(table[i](a - '0', b - '0'));
        putchar(' ');
    }
    return 0;
}
