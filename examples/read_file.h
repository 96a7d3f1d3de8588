/* A file's bytes, for the examples; NULL where it can't be read. */
#include <stdint.h>
#include <stdio.h>
#include <stdlib.h>

static uint8_t *read_file(const char *name, size_t *len)
{
    FILE *in = fopen(name, "rb");
    if (in == NULL || fseek(in, 0, SEEK_END) != 0)
        return NULL;
    long size = ftell(in);
    uint8_t *bytes = size < 0 ? NULL : malloc((size_t)size + 1);
    if (bytes == NULL)
        return NULL;
    rewind(in);
    *len = fread(bytes, 1, (size_t)size, in);
    return fclose(in) == 0 && *len == (size_t)size ? bytes : NULL;
}
