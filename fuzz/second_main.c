/* The second program's own main, out of the way, so that its other functions can be linked. */
#define main second_main
#include "../second/main.c"
