/* A search tree of three words a node over malloc: inserted by a pointer to the pointer, written in order.
   Plain C. Status 5. Writes "-5 0 2 3 7 7 9 40 : 5". */
int *tree;
void insert(int **at, int n)
{
    int *node;
    while (*at) at = (int **)(n < (*at)[0] ? *at + 1 : *at + 2);
    node = malloc(12);
    node[0] = n;
    node[1] = node[2] = 0;
    *at = node;
}
void show(int *node)
{
    if (!node) return;
    show((int *)node[1]);
    putint(*node);
    putchar(' ');
    show((int *)node[2]);
}
int depth(int *node)
{
    int a, b;
    if (!node) return 0;
    a = depth((int *)node[1]);
    b = depth((int *)node[2]);
    return 1 + (a > b ? a : b);
}
int main()
{
    insert(&tree, 7);
    insert(&tree, 3);
    insert(&tree, 9);
    insert(&tree, 0);
    insert(&tree, 2);
    insert(&tree, -5);
    insert(&tree, 7);
    insert(&tree, 40);
    show(tree);
    insert(&tree, 50);
    insert(&tree, 60);
    putchar(':');
    putchar(' ');
    putint(depth(tree));
    return depth(tree);
}
