/* Exponentiation: the code for v to the power of 5 is made of products, without a loop or a test.
   A backquote makes a specification, and a name of one in a backquote puts its code there.
   `compile` makes a function of the specification; this one is ((((1*v)*v)*v)*v)*v.
   Stage: generated code. Status: 0. */
int cspec pw(int vspec v, int n)
{
    int cspec r;
    if (n == 0) return `1;
    r = pw(v, n - 1);
    return `(r * v);
}

int main()
{
    int vspec v;
    int (*f)(int);
    v = param(int, 0);
    f = compile(pw(v, 5), int);
    putint(f(3));
    putchar('\n');
    return 0;
}
