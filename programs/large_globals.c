/* Globals of many bytes, and at their end.
   Plain C. Status 0. Writes "7 -7 0 40000 123". */
int before = 7;
char room[100001];
int after = -7;
short many[20000];
char *text = "123";
int main()
{
    int i;
    putint(before);
    putchar(' ');
    room[100000] = 1;
    putint(after);
    putchar(' ');
    putint(room[0] + room[99999] + many[0]);
    putchar(' ');
    for (i = 0; i < 20000; i++) many[i] = 2;
    after = 0;
    for (i = 0; i < 20000; i++) after += many[i];
    putint(after);
    putchar(' ');
    while (*text) putchar(*text++);
    return 0;
}
