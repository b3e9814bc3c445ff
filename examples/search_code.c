/* Binary search as code: a sorted table becomes a tree of comparisons with constants.
   The function that makes it calls itself as a search would, but on both halves.
   What is found is what search.c finds, without a loop and without a read of the table.
   Stage: generated code. Status: 0. */
int table[7] = {2, 3, 5, 7, 11, 13, 17};

int cspec tree(int vspec x, int low, int high)
{
    int cspec left;
    int cspec right;
    int middle;
    if (low == high)
        return `-1;
    middle = (low + high) / 2;
    left = tree(x, low, middle);
    right = tree(x, middle + 1, high);
    return `(x == $table[middle] ? $middle : x < $table[middle] ? left : right);
}

int main()
{
    int vspec x;
    int (*find)(int);
    int wanted;
    x = param(int, 0);
    find = compile(tree(x, 0, 7), int);
    for (wanted = 0; wanted < 19; wanted++)
        if (find(wanted) >= 0) {
            putint(wanted);
            putchar('@');
            putint(find(wanted));
            putchar(' ');
        }
    putchar('\n');
    return 0;
}
