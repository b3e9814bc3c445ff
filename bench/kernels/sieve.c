/* The sieve of Eratosthenes over a million chars: how many primes there are, and the last one. */
char out[1000000];
int main()
{
    int i, j, n, last;
    n = last = 0;
    for (i = 2; i < 1000000; i++) {
        if (out[i]) continue;
        n++;
        last = i;
        if (i < 1000)
            for (j = i * i; j < 1000000; j += i) out[j] = 1;
    }
    putint(n);
    putchar(' ');
    putint(last);
    putchar('\n');
    return 0;
}
