/* Functions in a table: a pointer to a function is its number, counted from 1 in the order of the text.
   A call through a pointer tests the number and the count of arguments, and nothing else.
   So the last call, of `rectangle` with one argument, traps, and the line is `tick: trap BadCall`.
   Stage: functions and memory. Status: 70. */
int square(int side) { return side * side; }
int rectangle(int width, int height) { return width * height; }
int triangle(int width, int height) { return width * height / 2; }
int (*shapes[3])();
int main()
{
    shapes[0] = square;
    shapes[1] = rectangle;
    shapes[2] = triangle;
    putint(shapes[0](4));
    putchar(' ');
    putint(shapes[1](4, 5));
    putchar(' ');
    putint(shapes[2](4, 5));
    putchar(' ');
    putint((int)triangle);
    putchar('\n');
    return shapes[1](6);
}
