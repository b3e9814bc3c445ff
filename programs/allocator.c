/* A heap allocator in C over one array: a list of free pieces in the order of their addresses, first fit, split as they
   are taken and joined as they are given back.
   Plain C. Status 0. Writes "0 12 24 12 1 1 0 64". */
int heap[64];
int free_list;
int start()
{
    heap[0] = 64;
    heap[1] = -1;
    free_list = 0;
    return 0;
}
int take(int n)
{
    int at, before;
    n = n + 1;
    if (n < 2) n = 2;
    before = -1;
    for (at = free_list; at >= 0; at = heap[at + 1]) {
        if (heap[at] >= n) {
            if (heap[at] >= n + 2) {
                heap[at + n] = heap[at] - n;
                heap[at + n + 1] = heap[at + 1];
                heap[at] = n;
                if (before < 0) free_list = at + n;
                else heap[before + 1] = at + n;
            } else if (before < 0) free_list = heap[at + 1];
            else heap[before + 1] = heap[at + 1];
            return at + 1;
        }
        before = at;
    }
    return -1;
}
void give(int place)
{
    int at, before, next;
    at = place - 1;
    before = -1;
    next = free_list;
    while (next >= 0 && next < at) {
        before = next;
        next = heap[next + 1];
    }
    heap[at + 1] = next;
    if (before < 0) free_list = at;
    else heap[before + 1] = at;
    if (next >= 0 && at + heap[at] == next) {
        heap[at] += heap[next];
        heap[at + 1] = heap[next + 1];
    }
    if (before >= 0 && before + heap[before] == at) {
        heap[before] += heap[at];
        heap[before + 1] = heap[at + 1];
    }
}
void number(int n)
{
    putint(n);
    putchar(' ');
}
int main()
{
    int a, b, c, d;
    start();
    a = take(11);
    b = take(11);
    c = take(11);
    number(a - 1);
    number(b - 1);
    number(c - 1);
    give(b);
    d = take(9);
    number(d - 1);
    number(take(40) == -1);
    number(take(26) > c);
    give(a);
    give(c);
    give(d);
    give(37);
    number(free_list);
    putint(heap[0]);
    return 0;
}
