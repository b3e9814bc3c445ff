/* The sieve of Eratosthenes over 2,000 chars on the frame.
   Plain C. Status 47. Writes "303 1999". */
int main()
{
    char out[2000];
    int i, j, n, last;
    n = 0;
    for (i = 2; i < 2000; i++) {
        if (out[i]) continue;
        n++;
        last = i;
        for (j = i * i; j < 2000; j += i) out[j] = 1;
    }
    putint(n);
    putchar(' ');
    putint(last);
    return n & 255;
}
