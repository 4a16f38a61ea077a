#include <stdio.h>
void number(int n) { if (n > 9) number(n / 10); putchar('0' + n % 10); }
