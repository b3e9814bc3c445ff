/* What a program of ours finds outside, for i386 without a C library: the five library functions, the start, and what
   the compiler itself may call. `tools/plain_c/check` compiles it with each program. */
typedef unsigned size;
int main();

static int call(int number, int a, void *b, int c)
{
    int answer;
    __asm__ volatile("int $0x80" : "=a"(answer) : "a"(number), "b"(a), "c"(b), "d"(c) : "memory");
    return answer;
}
void exit(int status)
{
    for (;;) call(1, status & 255, 0, 0);
}
int getchar(void)
{
    unsigned char byte;
    return call(3, 0, &byte, 1) == 1 ? byte : -1;
}
int putchar(int word)
{
    unsigned char byte = word;
    if (call(4, 1, &byte, 1) != 1) exit(73);
    return byte;
}
void putint(int word)
{
    unsigned rest = word < 0 ? -(unsigned)word : word;
    char text[12], *at = text + 12;
    do *--at = '0' + rest % 10; while (rest /= 10);
    if (word < 0) *--at = '-';
    while (at < text + 12) putchar(*at++);
}
static char heap[8388608] __attribute__((aligned(8)));
static size taken;
void *malloc(size bytes)
{
    char *place = heap + taken;
    if (bytes > sizeof heap - taken) return 0;
    taken += (bytes + 7) & ~7u;
    return place;
}
void *memset(void *to, int byte, size count)
{
    volatile char *at = to;
    while (count--) *at++ = byte;
    return to;
}
void *memcpy(void *to, const void *from, size count)
{
    volatile char *at = to;
    const char *of = from;
    while (count--) *at++ = *of++;
    return to;
}
void edge_start(void)
{
    exit(main());
}
