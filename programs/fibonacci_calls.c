/* Fibonacci's numbers by two calls each, and the count of the calls.
   Plain C. Status 144. Writes "610 1973". */
int calls;
int fib(int n)
{
    calls += 1;
    return n < 2 ? n : fib(n - 1) + fib(n - 2);
}
int main()
{
    putint(fib(15));
    putchar(' ');
    putint(calls);
    return fib(12);
}
