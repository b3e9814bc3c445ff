int getchar(void);
int putchar(int);
void putint(int);
void *malloc(unsigned);
void exit(int) __attribute__((noreturn));
