/* The DFA of divisible.c, with its table of states made into code that reads the input by itself.
   `local` makes a variable of the generated function, which code from several backquotes shares.
   Each state becomes an `if` with two constants, put before the states made so far.
   Stage: generated code. Status: 0. */
int next[6] = {0, 1, 2, 0, 1, 2};

int main()
{
    int vspec state;
    int vspec c;
    void cspec states;
    void cspec rest;
    int (*f)();
    int s;
    state = local(int);
    c = local(int);
    states = `{};
    for (s = 2; s >= 0; s--) {
        rest = states;
        states = `{
            if (state == $s)
                state = c == '0' ? $next[2 * s] : $next[2 * s + 1];
            else
                rest;
        };
    }
    f = compile(`{
        while ((c = getchar()) >= 0)
            if (c == '\n') {
                putchar(state ? 'n' : 'y');
                state = 0;
            } else
                states;
        putchar('\n');
        return 0;
    }, int);
    return f();
}
