static int side(void) { return 2; }
int right(void) { return side(); }
