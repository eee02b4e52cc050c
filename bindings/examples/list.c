/* Prints the findings of a law file: `list LAW`.
 *
 * The first line has the number of findings, the rounds, and 1 for settled or 0. A line for each finding follows: its
 * span, its severity and its text. A refused law gives the line `refused N` and the exit status 1. */
#include <inttypes.h>
#include <stdio.h>

#include "bilzarko.h"

static const char *const severities[] = {"error", "deny", "warn", "allow"};

static uint8_t law[BILZARKO_LAW_BYTES + 1]; /* one byte more, so that a file over the limit is refused */
static uint32_t store[BILZARKO_STORE_WORDS];
static uint32_t words[BILZARKO_FINDING_WORDS * BILZARKO_TEXT_FINDINGS];
static uint8_t texts[BILZARKO_TEXT_FINDINGS][BILZARKO_TEXT_BYTES];
static uint64_t lengths[BILZARKO_TEXT_FINDINGS];

/* Fills words and texts, and returns 0 or the number of a refusal. */
static uint32_t list(size_t bytes, uint64_t answer[BILZARKO_ANSWER_WORDS])
{
    uint32_t refused = bilzarko_findings(BILZARKO_MODE_STRICT, NULL, 0, law, bytes, store, BILZARKO_STORE_WORDS, words,
                                         sizeof words / sizeof words[0], answer);
    if (refused != 0)
        return refused;
    for (size_t i = 0; i < answer[BILZARKO_ANSWER_FINDINGS]; i++) {
        refused = bilzarko_text(BILZARKO_MODE_STRICT, NULL, 0, law, bytes, store, BILZARKO_STORE_WORDS, i, texts[i],
                                BILZARKO_TEXT_BYTES, &lengths[i]);
        if (refused != 0)
            return refused;
    }
    return 0;
}

static void print(const uint64_t answer[BILZARKO_ANSWER_WORDS])
{
    printf("%" PRIu64 " %" PRIu64 " %" PRIu64 "\n", answer[BILZARKO_ANSWER_FINDINGS],
           answer[BILZARKO_ANSWER_ROUNDS], answer[BILZARKO_ANSWER_SETTLED]);
    for (size_t i = 0; i < answer[BILZARKO_ANSWER_FINDINGS]; i++) {
        const uint32_t *finding = &words[BILZARKO_FINDING_WORDS * i];
        printf("%" PRIu32 "-%" PRIu32 " %s: ", finding[BILZARKO_FINDING_SPAN_START],
               finding[BILZARKO_FINDING_SPAN_END], severities[finding[BILZARKO_FINDING_SEVERITY]]);
        fwrite(texts[i], 1, lengths[i], stdout);
        putchar('\n');
    }
}

int main(int count, char **arguments)
{
    if (count != 2) {
        fprintf(stderr, "usage: list LAW\n");
        return 2;
    }
    FILE *file = fopen(arguments[1], "rb");
    if (file == NULL) {
        perror(arguments[1]);
        return 2;
    }
    size_t bytes = fread(law, 1, sizeof law, file);
    int failed = ferror(file);
    fclose(file);
    if (failed) {
        fprintf(stderr, "%s: cannot be read\n", arguments[1]);
        return 2;
    }
    uint64_t answer[BILZARKO_ANSWER_WORDS] = {0, 0, 0};
    uint32_t refused = list(bytes, answer);
    if (refused != 0)
        printf("refused %" PRIu32 "\n", refused);
    else
        print(answer);
    if (fflush(stdout) != 0)
        return 2;
    return refused != 0;
}
