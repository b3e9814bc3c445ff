int main(){putchar(72);putchar(10);while(1){}return 3;}
