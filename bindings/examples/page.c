/* Prints the findings of a law file as pages: `page LAW`.
 *
 * include/bilzarko.h says what a page is. A refused law gives the line `refused N` and the exit status 1. */
#include <inttypes.h>
#include <stdio.h>

#include "bilzarko.h"

static uint8_t law[BILZARKO_LAW_BYTES + 1]; /* one byte more, so that a file over the limit is refused */
static uint32_t store[BILZARKO_STORE_WORDS];
static uint8_t page[BILZARKO_PAGE_BYTES];

int main(int count, char **arguments)
{
    if (count != 2) {
        fprintf(stderr, "usage: page LAW\n");
        return 2;
    }
    FILE *file = fopen(arguments[1], "rb");
    if (file == NULL) {
        perror(arguments[1]);
        return 2;
    }
    size_t bytes = fread(law, 1, sizeof law, file);
    int failed = ferror(file);
    fclose(file);
    if (failed) {
        fprintf(stderr, "%s: cannot be read\n", arguments[1]);
        return 2;
    }
    uint64_t written = 0;
    uint32_t refused = bilzarko_page(BILZARKO_MODE_STRICT, NULL, 0, law, bytes, store, BILZARKO_STORE_WORDS, page,
                                     sizeof page, &written);
    if (refused != 0)
        printf("refused %" PRIu32 "\n", refused);
    else
        fwrite(page, 1, (size_t)written, stdout);
    if (fflush(stdout) != 0)
        return 2;
    return refused != 0;
}
