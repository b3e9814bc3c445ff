/* The smallest program that writes something: two bytes, an H and a line feed.
   What `main` returns is the status that the run ends with.
   It is the program of the README's first command.
   Stage: basics. Status: 3. */
int main(){putchar(72);putchar(10);return 3;}
