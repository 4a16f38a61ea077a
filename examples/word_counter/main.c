#include <stdio.h>
enum kind { OTHER, SPACE, LINE };
extern int lines;
int words_seen(void);
void feed(enum kind k);
void number(int n);
static int bytes;
static enum kind kind_of(int c) {
  switch (c) {
  case '\n': return LINE;
  case ' ': case '\t': return SPACE;
  default: return OTHER;
  }
}
int main(void) {
  int c;
  while ((c = getchar()) != EOF) { bytes++; feed(kind_of(c)); }
  number(lines); putchar(' '); number(words_seen()); putchar(' ');
  number(bytes); putchar('\n');
  return 0;
}
