#include <stdio.h>
int main(void){putchar(getchar() + 1); return 2 * 3;}
