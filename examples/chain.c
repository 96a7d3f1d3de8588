/* Prints why a sample is what it is: the numbers behind its level (blacks in 256ths), a line for each opcode that covers it, its
   value, and a line for each opcode that is skipped; or the number and the detail of the refusal.

       chain FILE.dng ROW COLUMN PLANE */
#include <inttypes.h>
#include <stdio.h>
#include <stdlib.h>

#include "dng.h"
#include "read_file.h"

static const char *const names[DNG_CHAIN_NUMBERS] = {
    "stored sample", "table value", "cell's black", "column delta", "row delta", "B", "M", "L",
    "opcodes covering", "opcodes skipped",
};

int main(int count, char **words)
{
    size_t len;
    uint8_t *file = count == 5 ? read_file(words[1], &len) : NULL;
    if (file == NULL) {
        fputs("usage: chain FILE.dng ROW COLUMN PLANE\n", stderr);
        return 2;
    }
    size_t spot[3];
    for (int i = 0; i < 3; i++)
        spot[i] = strtoull(words[2 + i], NULL, 10);
    int64_t numbers[DNG_CHAIN_NUMBERS];
    uint64_t places[DNG_CHAIN_PLACES], ids[DNG_CHAIN_PLACES], skipped[DNG_CHAIN_PLACES];
    double value, before[DNG_CHAIN_PLACES], after[DNG_CHAIN_PLACES];
    uint64_t answer = dng_chain(file, len, spot[0], spot[1], spot[2], numbers, &value, places, DNG_CHAIN_PLACES, ids, DNG_CHAIN_PLACES,
                                before, DNG_CHAIN_PLACES, after, DNG_CHAIN_PLACES, skipped, DNG_CHAIN_PLACES);
    free(file);
    if (answer != 0) {
        printf("refused %" PRIu64 " %" PRIu64 "\n", answer >> 32, answer & 0xffffffff);
        return 1;
    }
    for (int i = 0; i < DNG_CHAIN_NUMBERS; i++)
        printf("%s %" PRId64 "\n", names[i], numbers[i]);
    for (int64_t i = 0; i < numbers[DNG_CHAIN_COVERING]; i++)
        printf("place %" PRIu64 ", id %" PRIu64 ": %.17g becomes %.17g\n", places[i], ids[i], before[i], after[i]);
    printf("value %.17g\n", value);
    for (int64_t i = 0; i < numbers[DNG_CHAIN_SKIPPED]; i++)
        printf("place %" PRIu64 " is skipped\n", skipped[i]);
    return 0;
}
