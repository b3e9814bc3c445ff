/* A DFA with three states reads binary numbers, a line each, and says which are divisible by 3.
   The state is the remainder so far: a digit d leads from state s to 2s + d, modulo 3.
   A `break` leaves the `switch` alone, and `exit` ends the run from within it.
   Stage: one main. Status: 2. */
int main() {
    int c, state = 0, found = 0;
    for (;;) {
        c = getchar();
        switch (c) {
        case '0':
            state = state == 0 ? 0 : state == 1 ? 2 : 1;
            break;
        case '1':
            state = state == 0 ? 1 : state == 1 ? 0 : 2;
            break;
        case '\n':
            putchar(state ? 'n' : 'y');
            found += !state;
            state = 0;
            break;
        default:
            putchar('\n');
            exit(found);
        }
    }
}
