/* A query matcher: a query over records is made into a function that answers whether a record matches.
   A record has a year, pages and a price; the query asks for years after 1995 and prices below 50.
   Each comparison of the query is chosen once, as the code is made, and not once for each record.
   Stage: generated code. Status: 0. */
int records[12] = {1994, 300, 40, 2001, 120, 15, 1999, 500, 60, 2005, 250, 25};
int query[6] = {0, '>', 1995, 2, '<', 50};

int cspec comparison(int * vspec record, int field, int sign, int value)
{
    if (sign == '<')
        return `(record[$field] < $value);
    if (sign == '>')
        return `(record[$field] > $value);
    return `(record[$field] == $value);
}

int main()
{
    int * vspec record;
    int cspec matches;
    int cspec next;
    int (*f)(int *);
    int i;
    record = param(int *, 0);
    matches = `1;
    for (i = 0; i < 6; i += 3) {
        next = comparison(record, query[i], query[i + 1], query[i + 2]);
        matches = `(matches && next);
    }
    f = compile(matches, int);
    for (i = 0; i < 4; i++)
        if (f(records + 3 * i)) {
            putint(i);
            putchar('\n');
        }
    return 0;
}
