/* The library functions of the language, for `bench/code`, which puts it in front of each kernel that gcc compiles. */
int printf(const char *, ...);
int getchar(void);
int putchar(int);
void *malloc(unsigned);
void exit(int) __attribute__((noreturn));
static void putint(int word) { printf("%d", word); }
