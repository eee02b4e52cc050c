/* Marks a number as it is typed: `mark NUMBER`.
 *
 * It prints the number, and under each byte `.` where the number so far is a macrodigit, `^` where it is past the macrodigits, and
 * `?` where the byte is no digit. */
#include <stdio.h>
#include <string.h>

#include "bilzarko.h"

int main(int count, char **arguments)
{
    static const char marks[] = {[BILZARKO_DIGIT_PAST] = '^', [BILZARKO_DIGIT_AT_MOST] = '.', [BILZARKO_DIGIT_NONE] = '?'};
    uint64_t state = BILZARKO_DIGIT_START;
    if (count != 2) {
        fprintf(stderr, "usage: mark NUMBER\n");
        return 2;
    }
    printf("%s\n", arguments[1]);
    for (size_t i = 0; i < strlen(arguments[1]); i++)
        putchar(marks[bilzarko_digit(&state, (uint8_t)arguments[1][i])]);
    putchar('\n');
    return fflush(stdout) == 0 ? 0 : 2;
}
