#include <stdio.h>
/* Each way back to the loop's start takes a turn, and so does a call. */
static void dot(void) { putchar('.'); }
int main(void) { for (;;) dot(); }
