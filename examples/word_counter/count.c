enum kind { OTHER, SPACE, LINE };
int lines;
static int words, inside;
void feed(enum kind k) {
  if (k == LINE) lines++;
  if (k != OTHER) inside = 0;
  else if (!inside) { inside = 1; words++; }
}
int words_seen(void) { return words; }
