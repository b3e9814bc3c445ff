/* An interpreter of a language of eight signs, which runs a program that multiplies and one that echoes its input.
   Plain C. Status 0. Reads "ok". Writes "Hi!\nok". */
unsigned char cells[64];
char *hello = "++++++++[>+++++++++<-]>.>+++++++[<+++++>-]<--.[-]>++++++[<+++++>-]<+++.[-]++++++++++.";
char *echo = ",+[-.,+]";
void run(char *code)
{
    int at, depth;
    char *p;
    at = 0;
    for (p = code; *p; p++) {
        switch (*p) {
        case '>': at++; break;
        case '<': at--; break;
        case '+': cells[at]++; break;
        case '-': cells[at]--; break;
        case '.': putchar(cells[at]); break;
        case ',': cells[at] = getchar(); break;
        case '[':
            if (cells[at]) break;
            for (depth = 1; depth; ) {
                p++;
                if (*p == '[') depth++;
                else if (*p == ']') depth--;
            }
            break;
        case ']':
            for (depth = 1; depth; ) {
                p--;
                if (*p == ']') depth++;
                else if (*p == '[') depth--;
            }
            p--;
        }
    }
}
int main()
{
    run(hello);
    run(echo);
    return 0;
}
