/* What the checking build calls where an index can't hold a sum, a difference or a product: it ends the program. */
#include <stdlib.h>

void index_overflow(void);

void index_overflow(void)
{
    abort();
}
