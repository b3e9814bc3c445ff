/* When a variable is read: `$x` as the backquote is evaluated, `x` as the generated code runs.
   So the first function keeps the 5, and the second sees the 9 that was stored behind it.
   A variable that a backquote names without `$` stands in memory.
   Stage: generated code. Status: 0. */
int main()
{
    int x;
    int (*early)();
    int (*late)();
    x = 5;
    early = compile(`{ return $x + 1; }, int);
    late = compile(`{ return x + 1; }, int);
    x = 9;
    putint(early());
    putchar(' ');
    putint(late());
    putchar('\n');
    return 0;
}
