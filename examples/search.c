/* Binary search in a sorted table, as a function over a pointer and a length.
   Globals stand in memory, and an index isn't checked against a length: only an address that isn't memory traps.
   search_code.c is the same search with the table made into code.
   Stage: functions and memory. Status: 0. */
int table[7] = {2, 3, 5, 7, 11, 13, 17};

int find(int *sorted, int length, int wanted)
{
    int low = 0, high = length, middle;
    while (low < high) {
        middle = (low + high) / 2;
        if (sorted[middle] == wanted)
            return middle;
        if (sorted[middle] < wanted)
            low = middle + 1;
        else
            high = middle;
    }
    return -1;
}

int main()
{
    int wanted;
    for (wanted = 0; wanted < 19; wanted++)
        if (find(table, 7, wanted) >= 0) {
            putint(wanted);
            putchar('@');
            putint(find(table, 7, wanted));
            putchar(' ');
        }
    putchar('\n');
    return 0;
}
