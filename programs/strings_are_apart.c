/* Each string of the text has bytes of its own, and they may be changed; adjacent ones join.
   Status 0. Writes "ab ab xb ab abcA~ 5". */
char *a = "ab";
void say(char *s)
{
    while (*s) putchar(*s++);
    putchar(' ');
}
char *same() { return "ab"; }
int main()
{
    char *b;
    b = "ab";
    say(a);
    say(b);
    *b = 'x';
    say(b);
    say(a);
    say("a" "b" /* and */ "c\101\x7e");
    b = same();
    b[1] = 0;
    for (b = same(); *b; b++) {}
    putint((b - same()) * 5);
    return 0;
}
