/* The same program as C++. */
#include "shop.c"
