/* A dot product with a row that is known as the code is made: a zero of it costs nothing.
   The generated function is ((0 + v[0]*2) + v[2]*3) + v[3]*1.
   A column is then handed to it by its address.
   Stage: generated code. Status: 0. */
int row[4] = {2, 0, 3, 1};

int main()
{
    int i;
    int * vspec v;
    int cspec s;
    int (*f)(int *);
    int col[4];
    v = param(int *, 0);
    s = `0;
    for (i = 0; i < 4; i++)
        if (row[i])
            s = `(s + v[$i] * $row[i]);
    f = compile(s, int);
    for (i = 0; i < 4; i++)
        col[i] = i + 1;
    putint(f(col));
    putchar('\n');
    return 0;
}
