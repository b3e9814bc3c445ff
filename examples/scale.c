/* A matrix is scaled by a number that is known as the code is made: its loop is unrolled.
   The product with 10 becomes sums of shifted words, chosen by the bits of the 10.
   One `local` holds the element, so the matrix is read once for each.
   Stage: generated code. Status: 0. */
int matrix[6] = {1, 2, 3, 4, 5, 6};

int cspec times(int vspec x, int factor)
{
    int cspec sum;
    int bit;
    sum = `0;
    for (bit = 0; factor >> bit; bit++)
        if (factor >> bit & 1)
            sum = `(sum + (x << $bit));
    return sum;
}

int main()
{
    int * vspec p;
    int vspec x;
    int cspec product;
    void cspec body;
    void cspec before;
    int (*f)(int *);
    int i;
    p = param(int *, 0);
    x = local(int);
    product = times(x, 10);
    body = `{};
    for (i = 0; i < 6; i++) {
        before = body;
        body = `{ before; x = p[$i]; p[$i] = product; };
    }
    f = compile(`{ body; return 0; }, int);
    f(matrix);
    for (i = 0; i < 6; i++) {
        putint(matrix[i]);
        putchar(i % 3 < 2 ? ' ' : '\n');
    }
    return 0;
}
