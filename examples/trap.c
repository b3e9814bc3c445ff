/* A run can trap, and then it ends with status 70 and a line on standard error.
   What was written before the trap stands: the quotients of 60 by 3, 2 and 1.
   The line is `tick: trap DivideByZero`.
   Stage: one main. Status: 70. */
int main() {
    int d;
    for (d = 3; d >= 0; d--) {
        putint(60 / d);
        putchar('\n');
    }
    return 0;
}
