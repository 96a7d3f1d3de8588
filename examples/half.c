/* Prints the half-size colour of a mosaic: a line for each 2x2 block, its row and column among the blocks and X, Y, Z (D50),
   so that every bit of them is told; or the number and the detail of the refusal.

       half FILE.dng */
#include <inttypes.h>
#include <stdio.h>
#include <stdlib.h>

#include "dng.h"
#include "read_file.h"

int main(int count, char **names)
{
    size_t len;
    uint8_t *file = count == 2 ? read_file(names[1], &len) : NULL;
    if (file == NULL) {
        fputs("usage: half FILE.dng\n", stderr);
        return 2;
    }
    uint64_t card[DNG_CARD_NUMBERS];
    dng_card(file, len, card);
    size_t rows = card[DNG_ROWS] / 2, columns = card[DNG_COLUMNS] / 2;
    double *xyz = malloc((columns + 1) * 3 * sizeof *xyz);
    if (xyz == NULL)
        return 2;
    for (size_t row = 0; row < rows || row == 0; row++) {
        uint64_t answer = dng_half_window(file, len, row, 0, 1, columns, xyz, columns * 3);
        if (answer != 0) {
            printf("refused %" PRIu64 " %" PRIu64 "\n", answer >> 32, answer & 0xffffffff);
            return 1;
        }
        for (size_t column = 0; column < columns; column++) {
            const double *v = &xyz[3 * column];
            printf("%zu %zu %.17g %.17g %.17g\n", row, column, v[0], v[1], v[2]);
        }
    }
    free(xyz);
    free(file);
    return 0;
}
