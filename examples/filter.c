/* A packet filter: rules that came as data become one condition, with every offset, mask and value a constant.
   Each rule is an offset, a mask and a value; a packet passes where all of them hold.
   The generated function has no loop over the rules, and stops at the first that fails.
   Stage: generated code. Status: 2. */
int rules[6] = {0, 240, 64, 3, 255, 6};
unsigned char packets[16] = {69, 0, 0, 6, 96, 0, 0, 6, 70, 1, 1, 17, 79, 9, 9, 6};

int cspec filter(unsigned char * vspec p, int *rule, int count)
{
    int cspec passes;
    int i;
    passes = `1;
    for (i = 0; i < count; i++)
        passes = `(passes && (p[$rule[3 * i]] & $rule[3 * i + 1]) == $rule[3 * i + 2]);
    return passes;
}

int main()
{
    unsigned char * vspec p;
    int (*f)(unsigned char *);
    int i, passed = 0;
    p = param(unsigned char *, 0);
    f = compile(filter(p, rules, 2), int);
    for (i = 0; i < 4; i++) {
        putchar(f(packets + 4 * i) ? 'y' : 'n');
        passed += f(packets + 4 * i);
    }
    putchar('\n');
    return passed;
}
