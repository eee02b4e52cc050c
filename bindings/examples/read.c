/* Writes the law file of a law typed as Refal-5 text: `read TEXT LAW`.
 *
 * It prints a line with the number of bytes written. A text that is refused gives the line `refused N` and the exit status 1;
 * no law file is written then. */
#include <inttypes.h>
#include <stdio.h>

#include "bilzarko.h"

static uint8_t text[BILZARKO_LAW_TEXT_BYTES + 1]; /* one byte more, so that a text over the limit is refused */
static uint8_t law[BILZARKO_LAW_BYTES];

/* The bytes of a file, at most those of a text and one more; 0 where it can be read. */
static int read_file(const char *name, size_t *bytes)
{
    FILE *file = fopen(name, "rb");
    if (file == NULL) {
        perror(name);
        return 2;
    }
    *bytes = fread(text, 1, sizeof text, file);
    int failed = ferror(file);
    fclose(file);
    if (failed)
        fprintf(stderr, "%s: cannot be read\n", name);
    return failed ? 2 : 0;
}

/* 0 where the law file can be written. */
static int write_file(const char *name, size_t bytes)
{
    FILE *file = fopen(name, "wb");
    if (file == NULL) {
        perror(name);
        return 2;
    }
    size_t written = fwrite(law, 1, bytes, file);
    if (fclose(file) != 0 || written != bytes) {
        fprintf(stderr, "%s: cannot be written\n", name);
        return 2;
    }
    return 0;
}

int main(int count, char **arguments)
{
    size_t bytes = 0;
    uint64_t answer = 0;
    if (count != 3) {
        fprintf(stderr, "usage: read TEXT LAW\n");
        return 2;
    }
    if (read_file(arguments[1], &bytes) != 0)
        return 2;
    uint32_t refused = bilzarko_read(text, bytes, law, sizeof law, &answer);
    if (refused != 0)
        printf("refused %" PRIu32 "\n", refused);
    else if (write_file(arguments[2], (size_t)answer) != 0)
        return 2;
    else
        printf("%" PRIu64 "\n", answer);
    if (fflush(stdout) != 0)
        return 2;
    return refused != 0;
}
