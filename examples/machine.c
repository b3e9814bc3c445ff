/* An interpreter of a stack machine: a `switch` in a loop over a program that stands in a table.
   The program squares its input, adds 3 and doubles the sum.
   compiler.c has the same machine, and makes code of the program in place of reading it again each time.
   Stage: functions and memory. Status: 0. */
int program[12] = {1, 0, 1, 0, 3, 2, 3, 4, 2, 2, 3, 0};
int stack[16];

/* 0 ends with the top, 1 pushes the input (its operand is unused), 2 pushes its operand, 3 multiplies, 4 adds. */
int run(int *at, int input)
{
    int top = 0;
    for (;;) {
        switch (*at++) {
        case 0:
            return stack[top - 1];
        case 1:
            at++;
            stack[top++] = input;
            break;
        case 2:
            stack[top++] = *at++;
            break;
        case 3:
            top--;
            stack[top - 1] *= stack[top];
            break;
        case 4:
            top--;
            stack[top - 1] += stack[top];
            break;
        }
    }
}

int main()
{
    int i;
    for (i = 0; i < 5; i++) {
        putint(run(program, i));
        putchar(i < 4 ? ' ' : '\n');
    }
    return 0;
}
