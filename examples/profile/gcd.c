#include <stdio.h>
static int gcd(int a, int b) { return b ? gcd(b, a % b) : a; }
static int never(int n) { return gcd(n, n); }
int main(void) {
  int c;
  int g = 0;
  while ((c = getchar()) != EOF) g = gcd(c, g);
  return g < 0 ? never(g) : g;
}
