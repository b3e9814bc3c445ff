/* Sums of words wrap, so twice the greatest number and 2 is 0.
   Arguments and results are expressions, and a comment may stand anywhere between tokens.
   It writes "Hi" and a line feed.
   Stage: basics. Status: 0. */
int main(){
  putchar(60+12);
  putchar(100+5); // the byte of i
  putchar(10);
  return 2147483647+2147483647+2;
}
