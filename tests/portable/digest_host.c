/* digest ROUNDS: prints the digest of so many rounds, where there is an operating system. */
#include "digest.h"

#include <inttypes.h>
#include <stdio.h>
#include <stdlib.h>

int main(int count, char **words)
{
    uint32_t sum = digest(count == 2 ? (uint32_t)strtoul(words[1], NULL, 10) : 0);
    printf("%08" PRIx32 ", %" PRIu32 " done, %" PRIu32 " refused\n", sum, digest_done, digest_refused);
    return 0;
}
