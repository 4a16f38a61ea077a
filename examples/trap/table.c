#include <stdio.h>
static int table[3] = { 7, 8, 9 };
int main(void) {
  int i;
  for (i = 0; ; i++) { putchar('0' + table[i]); putchar('\n'); }
}
