/* Two modules may each have a static function of one name. */
static int side(void) { return 1; }
int right(void);
int main(void) { return side() * 10 + right(); }
