/* A calculator with brackets: a parser by recursion, each level a function.
   Plain C. Status 0. Reads "2+3*(4-1)=(1+2)*(3+4)/5=-7%4+100=". Writes "11 4 97 ". */
int next;
int sum();
void advance() { next = getchar(); }
int primary()
{
    int n;
    if (next == '-') {
        advance();
        return -primary();
    }
    if (next == '(') {
        advance();
        n = sum();
        advance();
        return n;
    }
    for (n = 0; next >= '0' && next <= '9'; advance()) n = n * 10 + next - '0';
    return n;
}
int product()
{
    int n;
    n = primary();
    for (;;)
        switch (next) {
        case '*': advance(); n *= primary(); break;
        case '/': advance(); n /= primary(); break;
        case '%': advance(); n %= primary(); break;
        default: return n;
        }
}
int sum()
{
    int n, sign;
    n = product();
    while (next == '+' || next == '-') {
        sign = next == '+' ? 1 : -1;
        advance();
        n += sign * product();
    }
    return n;
}
int main()
{
    advance();
    while (next != -1) {
        putint(sum());
        putchar(' ');
        advance();
    }
    return 0;
}
