/* Tables of strings: pointers to the bytes of a text, also through a pointer to pointers.
   Plain C. Status 0. Writes "two five seven / seven 7 / Monday Friday 3 / tab\\t". */
char *digits[10] = {"zero", "one", "two", "three", "four", "five", "six", "seven", "eight", "nine"};
char *days[] = {"Sun", "Mon", "Tues", "Wednes", "Thurs", "Fri", "Satur"};
char *escaped = "tab\\t";
void say(char *s)
{
    for (; *s; ++s) putchar(*s);
}
int longest(char **table, int n)
{
    int i, j, most, at;
    most = -1;
    at = 0;
    for (i = 0; i < n; i++) {
        for (j = 0; table[i][j]; j++) {}
        if (j >= most) {
            most = j;
            at = i;
        }
    }
    return at;
}
int main()
{
    int n;
    for (n = 100; n; n /= 10) {
        say(digits[257 / n % 10]);
        putchar(' ');
    }
    say("/ ");
    n = longest(digits, 8);
    say(digits[n]);
    putchar(' ');
    putint(n);
    say(" / ");
    say(days[1]);
    say("day ");
    say(*(days + 5));
    say("day ");
    putint(longest(days, 7));
    say(" / ");
    say(escaped);
    return 0;
}
