/* That the header compiles as C99 and as C++, and that its macros with parameters give what they should: an array of a
 * negative size does not compile. Run, it lists a law without functions, which has no findings, one round and a page of one
 * line, lends settings that are refused before all else, reads texts: one is taken, one is outside the grammar, one is too long;
 * and takes digits up to the last macrodigit and past it. */
#include "bilzarko.h"

#define HOLDS(name, condition) typedef char name[(condition) ? 1 : -1]

HOLDS(override_is_a_word, BILZARKO_OVERRIDE(BILZARKO_LINT_OPEN_EXPRESSIONS, BILZARKO_SEVERITY_WARN) == 1026);
HOLDS(arguments_come_first, BILZARKO_FORMAT_ARGUMENT(0) == 0);
HOLDS(results_come_second, BILZARKO_FORMAT_RESULT(0) == BILZARKO_FORMAT_WORDS);
HOLDS(names_follow, BILZARKO_FORMAT_ARGUMENT(1) == 2 * BILZARKO_FORMAT_WORDS);
HOLDS(store_ends, BILZARKO_FORMAT_RESULT(63) + BILZARKO_FORMAT_WORDS == BILZARKO_STORE_WORDS);
HOLDS(store_is_formats, BILZARKO_FORMATS * BILZARKO_FORMAT_WORDS == BILZARKO_STORE_WORDS);
HOLDS(format_is_shapes, BILZARKO_FORMAT_SHAPES + 1 == BILZARKO_FORMAT_WORDS);

static uint32_t store[BILZARKO_STORE_WORDS];
static const uint8_t over[BILZARKO_LAW_BYTES + 1] = {0};
static uint8_t file[BILZARKO_LAW_BYTES];
static uint8_t page[74]; /* a line, its line feed, and a byte that must be kept */

/* The three calls with a law that is too long and no buffers: are they refused for their settings? */
static int settings_refused(uint32_t mode, const uint32_t *overrides, size_t overrides_length)
{
    uint64_t answer[BILZARKO_ANSWER_WORDS] = {7, 7, 7};
    return bilzarko_findings(mode, overrides, overrides_length, over, sizeof over, NULL, 0, NULL, 0, answer)
               == BILZARKO_REFUSAL_SETTINGS
           && bilzarko_text(mode, overrides, overrides_length, over, sizeof over, NULL, 0, 0, NULL, 0, answer)
                  == BILZARKO_REFUSAL_SETTINGS
           && bilzarko_page(mode, overrides, overrides_length, over, sizeof over, NULL, 0, NULL, 0, answer)
                  == BILZARKO_REFUSAL_SETTINGS
           && answer[0] == 7 && answer[1] == 7 && answer[2] == 7;
}

/* The answer to the last byte of a number. */
static uint32_t take_digits(const char *number)
{
    uint64_t state = BILZARKO_DIGIT_START;
    uint32_t answer = BILZARKO_DIGIT_NONE;
    for (; *number != '\0'; number++)
        answer = bilzarko_digit(&state, (uint8_t)*number);
    return answer;
}

int main(void)
{
    const uint8_t law[20] = {0};
    const uint32_t overrides[] = {BILZARKO_OVERRIDE(BILZARKO_LINT_DEAD_SENTENCE, BILZARKO_SEVERITY_ALLOW)};
    const uint32_t no_lint[] = {BILZARKO_OVERRIDE(5, BILZARKO_SEVERITY_WARN)};
    const uint32_t no_severity[] = {BILZARKO_OVERRIDE(BILZARKO_LINT_DEAD_SENTENCE, 4)};
    const uint32_t nine[] = {256, 256, 256, 256, 256, 256, 256, 256, 256};
    uint64_t answer[BILZARKO_ANSWER_WORDS] = {7, 7, 7};
    uint64_t bytes = 0;
    if (bilzarko_findings(BILZARKO_MODE_CLASSIC, overrides, 1, law, sizeof law, store, BILZARKO_STORE_WORDS, NULL, 0,
                          answer) != 0)
        return 1;
    if (answer[BILZARKO_ANSWER_FINDINGS] != 0 || answer[BILZARKO_ANSWER_ROUNDS] != 1
        || answer[BILZARKO_ANSWER_SETTLED] != 1)
        return 2;
    if (bilzarko_text(BILZARKO_MODE_CLASSIC, overrides, 1, law, sizeof law, store, BILZARKO_STORE_WORDS, 0, NULL, 0,
                      &bytes) != BILZARKO_REFUSAL_NO_FINDING)
        return 3;
    if (!settings_refused(2, NULL, 0) || !settings_refused(BILZARKO_MODE_STRICT, no_lint, 1)
        || !settings_refused(BILZARKO_MODE_STRICT, no_severity, 1)
        || !settings_refused(BILZARKO_MODE_STRICT, nine, BILZARKO_OVERRIDES + 1))
        return 4;
    if (bilzarko_read(NULL, 0, file, sizeof file, &bytes) != 0 || bytes != sizeof law)
        return 5;
    if (bilzarko_read(law, 1, file, sizeof file, &bytes) != BILZARKO_REFUSAL_GRAMMAR
        || bilzarko_read(over, BILZARKO_LAW_TEXT_BYTES + 1, NULL, 0, &bytes) != BILZARKO_REFUSAL_COUNT_OVER
        || bilzarko_read(NULL, 0, NULL, 0, &bytes) != BILZARKO_REFUSAL_LAW || bytes != sizeof law)
        return 6;
    if (take_digits("429496729") != BILZARKO_DIGIT_AT_MOST || take_digits("4294967295") != BILZARKO_DIGIT_AT_MOST
        || take_digits("4294967296") != BILZARKO_DIGIT_PAST || take_digits("42949672950") != BILZARKO_DIGIT_PAST
        || take_digits("4294967296x") != BILZARKO_DIGIT_NONE)
        return 7;
    page[73] = '?';
    bytes = 7;
    if (bilzarko_page(BILZARKO_MODE_CLASSIC, overrides, 1, law, sizeof law, store, BILZARKO_STORE_WORDS, page, 72, &bytes)
            != BILZARKO_REFUSAL_PAGE
        || bytes != 7 || page[0] != 0)
        return 8;
    if (bilzarko_page(BILZARKO_MODE_CLASSIC, overrides, 1, law, sizeof law, store, BILZARKO_STORE_WORDS, page, sizeof page,
                      &bytes) != 0
        || bytes != 73 || page[0] != '0' || page[71] != '1' || page[72] != '\n' || page[73] != '?')
        return 9;
    return 0;
}
