/* Sums and differences of pointers scale by what they point to; pointers compare as unsigned words.
   Plain C. Status 0. Writes "4 3 2 1 4 8 2 1 12 101101 0 1 -3 30". */
int a[10];
short h[10];
char c[10];
int m[4][3];
int main()
{
    int *p, *q;
    int (*row)[3];
    void *v;
    p = a + 7;
    q = &a[3];
    putint(p - q);
    putchar(' ');
    putint(&h[5] - &h[2]);
    putchar(' ');
    putint(c + 9 - &c[7]);
    putchar(' ');
    row = m + 1;
    putint(row - m);
    putchar(' ');
    putint((int)(a + 1) - (int)a);
    putchar(' ');
    putint((char *)(h + 4) - (char *)h);
    putchar(' ');
    putint((&p[0])[2] == 0 ? 2 : 0);
    putchar(' ');
    putint((int)(1 + c) - (int)c);
    putchar(' ');
    putint((int)(row + 1) - (int)*row);
    putchar(' ');
    putint(p > q);
    putint(p < q);
    putint(p != q);
    putint(q + 4 == p);
    putint(p - 4 > q);
    putint((char *)-1 > c);
    putchar(' ');
    v = p;
    putint(v == q);
    putchar(' ');
    putint(v == p && v != 0 && !!v);
    putchar(' ');
    q += 4;
    q -= 1;
    q++;
    --q;
    *--q = 5;
    *q++ = 6;
    putint((int)(q - p) * 3);
    putchar(' ');
    putint(a[5] * 5);
    return 0;
}
