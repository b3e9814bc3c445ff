/* A list of pairs of a number and a pointer over malloc: pushed, reversed and filtered.
   Plain C. Status 0. Writes "7 6 5 4 3 2 1 . 1 2 3 4 5 6 7 . 2 4 6 . 28". */
int **push(int **list, int n)
{
    int **cell;
    int *value;
    cell = malloc(2 * sizeof(int *));
    value = malloc(sizeof(int));
    *value = n;
    cell[0] = value;
    cell[1] = (int *)list;
    return cell;
}
int **reverse(int **list)
{
    int **done, **rest;
    for (done = 0; list; list = rest) {
        rest = (int **)list[1];
        list[1] = (int *)done;
        done = list;
    }
    return done;
}
int **even(int **list)
{
    if (!list) return 0;
    if (**list % 2) return even((int **)list[1]);
    list[1] = (int *)even((int **)list[1]);
    return list;
}
int sum(int **list) { return list ? **list + sum((int **)list[1]) : 0; }
void show(int **list)
{
    for (; list; list = (int **)list[1]) {
        putint(*list[0]);
        putchar(' ');
    }
    putchar('.');
    putchar(' ');
}
int main()
{
    int **list;
    int i, n;
    list = 0;
    for (i = 1; i < 8; i++) list = push(list, i);
    show(list);
    list = reverse(list);
    show(list);
    n = sum(list);
    show(even(list));
    putint(n);
    return 0;
}
