/* An interpreter of a language of eight signs, whose program multiplies 3 by 251 by 251, modulo 256, by adding ones. */
unsigned char cells[64];
char *program = "+++[>-----[>-----[>+<-]<-]<-]>>>.[-]++++++++++.";
int depth;
void run(char *code)
{
    int at;
    char *p;
    at = 0;
    for (p = code; *p; p++) {
        switch (*p) {
        case '>': at++; break;
        case '<': at--; break;
        case '+': cells[at]++; break;
        case '-': cells[at]--; break;
        case '.': putint(cells[at]); putchar(' '); break;
        case '[':
            if (cells[at]) break;
            for (depth = 1; depth; ) {
                p++;
                if (*p == '[') depth++;
                else if (*p == ']') depth--;
            }
            break;
        case ']':
            for (depth = 1; depth; ) {
                p--;
                if (*p == ']') depth++;
                else if (*p == '[') depth--;
            }
            p--;
        }
    }
}
int main()
{
    run(program);
    putchar('\n');
    return 0;
}
