/* Each assigning operator and each step on a word in memory; a place is evaluated once.
   Plain C. Status 0. Writes "12 10 50 7 1 8 4 6 2 7 | 3 4 4 3 | 6 6". */
int a[3];
int calls;
int *at(int i)
{
    calls++;
    return a + i;
}
void number(int n)
{
    putint(n);
    putchar(' ');
}
int main()
{
    int *p;
    *at(0) = 7;
    number(*at(0) += 5);
    number(a[0] -= 2);
    number(a[0] *= 5);
    number(a[0] /= 7);
    number(a[0] %= 3);
    number(a[0] <<= 3);
    number(a[0] >>= 1);
    number(a[0] |= 2);
    number(a[0] &= 11);
    number(a[0] ^= 5);
    putchar('|');
    putchar(' ');
    a[1] = 3;
    number((*at(1))++);
    number(a[1]--);
    number(++a[1]);
    number(--*at(1));
    putchar('|');
    putchar(' ');
    p = a;
    *p++ = 6;
    *p = 5;
    ++*p--;
    number(p[1]);
    putint(*p);
    return calls - 4;
}
