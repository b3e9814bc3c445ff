/* Functions that take functions and give functions.
   Plain C. Status 0. Writes "1 4 9 16 25 2 4 6 8 10 15 120 9". */
int numbers[5] = {1, 2, 3, 4, 5};
int square(int n) { return n * n; }
int twice(int n) { return n + n; }
int plus(int a, int b) { return a + b; }
int times(int a, int b) { return a * b; }
void each(int f(int))
{
    int i;
    for (i = 0; i < 5; i++) {
        putint(f(numbers[i]));
        putchar(' ');
    }
}
int fold(int (*f)(int, int), int start)
{
    int i;
    for (i = 0; i < 5; i++) start = f(start, numbers[i]);
    return start;
}
int (*choose(int which))(int)
{
    if (which) return square;
    return twice;
}
int main()
{
    each(square);
    each(twice);
    putint(fold(plus, 0));
    putchar(' ');
    putint(fold(times, 1));
    putchar(' ');
    putint(choose(1)(3));
    return choose(0)(0);
}
