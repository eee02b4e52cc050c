/* Bilzarko for C: the findings of a law file, the text of each of them, all of them on a printed page, the law file of a law
 * typed as text, and the test of a number's digits as they are typed.
 *
 * Link with libbilzarko.a, which `tools/staticlib.sh` writes to target/staticlib. It is for x86-64 Linux and needs
 * the C library only. The functions are proved to meet their contracts, which crates/bilzarko_c/src/lib.rt and
 * crates/bilzarko/specs/Exported.antt state: whatever the values of their arguments, the calls return, and the returned
 * number and every lent word afterwards are those of the specification. They keep nothing between calls.
 *
 * What a caller sees to, since nothing checks a caller in C:
 * - each pointer leads to as many elements as the number after it says, aligned for their type;
 * - the elements have values: memory that was never written may not be lent, not even as a buffer;
 * - what a call writes to (store, words, answer, the text call's text, the page call's page, the reading call's law, the
 *   digit call's state) overlaps nothing else that is lent to it, and nothing else reads or writes it before the call
 *   returns; nothing writes what a call only reads before then;
 * - where the number of elements is 0 the pointer is not used: it may be null or point anywhere;
 * - `answer` and `state` are never null;
 * - a call has BILZARKO_STACK_BYTES of stack. With less, the system may end the process at the guard page.
 *
 * The findings call, the text call and the page call return, but they can take for ever: matching with repeated variables
 * is NP-complete. The smallest law known to do so has a sentence with the pattern e.1 .. e.k 'c' e.2 e.4 .., every second
 * variable before e.k, and after it one with 'c' and 'a' k + 2 times; it takes some 2 seconds at k = 12, in 33 terms, and
 * about four times as long for each step of k. Where laws come from strangers, make the call in a process of its own and
 * end that process: a call keeps nothing, and holds nothing but what it is lent.
 */
#ifndef BILZARKO_H
#define BILZARKO_H

#include <stddef.h>
#include <stdint.h>

#ifdef __cplusplus
extern "C" {
#endif

/* The version of this header and of the Rust crate over the same calls. */
#define BILZARKO_VERSION_MAJOR 0
#define BILZARKO_VERSION_MINOR 5
#define BILZARKO_VERSION_PATCH 0

/* Limits and sizes. */
#define BILZARKO_LAW_BYTES 16384     /* bytes of a law file, at most */
#define BILZARKO_LAW_TEXT_BYTES 4096 /* bytes of a law typed as text, at most */
#define BILZARKO_OVERRIDES 8         /* overrides, at most */
#define BILZARKO_STORE_WORDS 8320    /* words of a store, at least: BILZARKO_FORMATS x BILZARKO_FORMAT_WORDS */
#define BILZARKO_FINDING_WORDS 8     /* words of a finding */
#define BILZARKO_TEXT_FINDINGS 256   /* findings that the text and the page call have places for; more is refusal 11 there */
#define BILZARKO_TEXT_BYTES 1087     /* bytes of the longest text; bindings/tests/longest_text.rs computes and reaches it */
#define BILZARKO_PAGE_BYTES 19053    /* bytes of the longest page: 256 findings and 5 headings, 73 bytes each */
#define BILZARKO_STACK_BYTES 1048576 /* stack to give to a call: the laws known to need most take 0.82 MiB */

/* Modes. Classic hides findings of severity allow, strict does not. */
#define BILZARKO_MODE_CLASSIC UINT32_C(0)
#define BILZARKO_MODE_STRICT UINT32_C(1)

/* Lints: the first word of a finding. */
#define BILZARKO_LINT_DEAD_SENTENCE UINT32_C(1)          /* a sentence that an earlier one without conditions shadows */
#define BILZARKO_LINT_RECOGNITION_IMPOSSIBLE UINT32_C(2) /* a call that no sentence of its function matches */
#define BILZARKO_LINT_BUILTIN_DOMAIN UINT32_C(3)         /* a call of a builtin function that always fails */
#define BILZARKO_LINT_OPEN_EXPRESSIONS UINT32_C(4)       /* a pattern with several e. variables */

/* Severities: the second word of a finding. By itself a lint has deny, open expressions allow. */
#define BILZARKO_SEVERITY_ERROR UINT32_C(0)
#define BILZARKO_SEVERITY_DENY UINT32_C(1)
#define BILZARKO_SEVERITY_WARN UINT32_C(2)
#define BILZARKO_SEVERITY_ALLOW UINT32_C(3)

/* An override: the severity of a lint's findings. One of BILZARKO_SEVERITY_ALLOW hides them in both modes. The first
 * override of a lint wins. */
#define BILZARKO_OVERRIDE(lint, severity) (UINT32_C(256) * (lint) + (severity))

/* The words of a finding, by their place among its eight.
 *
 * Spans are those of the law file. Functions, sentence records and term records count from 0. A and B by the lint:
 * - dead sentence: the sentence's number, and that of the earliest sentence that shadows it, both from 1 within the
 *   function, or within the block that they stand in;
 * - recognition impossible: 1 by formats, 2 by literals; 0;
 * - builtin domain: 1 two integers wanted, 2 division by zero, 3 digits wanted; 0;
 * - open expressions: the number of e. variables in the pattern; 0. */
#define BILZARKO_FINDING_LINT 0
#define BILZARKO_FINDING_SEVERITY 1
#define BILZARKO_FINDING_SPAN_START 2
#define BILZARKO_FINDING_SPAN_END 3
#define BILZARKO_FINDING_A 4
#define BILZARKO_FINDING_B 5
#define BILZARKO_FINDING_FUNCTION 6 /* the function in whose sentence the subject stands */
#define BILZARKO_FINDING_SUBJECT 7  /* a sentence record for dead sentence and open expressions, else a term record */

/* The words of the findings call's answer, by their place. */
#define BILZARKO_ANSWER_FINDINGS 0 /* the number of findings */
#define BILZARKO_ANSWER_ROUNDS 1   /* the number of rounds in which formats were inferred */
#define BILZARKO_ANSWER_SETTLED 2  /* 1 if the last round changed nothing, else 0 */
#define BILZARKO_ANSWER_WORDS 3

/* The store: BILZARKO_FORMATS formats of BILZARKO_FORMAT_WORDS words each, two for each name of a function.
 *
 * Names count from 0, each once, sorted by the bytes of their folded form: letters in upper case, `_` read as `-`. Name
 * number n has the format of its function's arguments first, then that of its results; functions of one name share them.
 * There are at most 64 names, and the words of formats past the last name are 0.
 *
 * A format's first word is its header: the number of its shapes at all depths, BILZARKO_FORMAT_OPEN more where it is open
 * (more terms may follow), or BILZARKO_FORMAT_NEVER alone where it admits nothing. A word for each shape follows, depth
 * first: a bracket's word stands before those of the shapes inside it. Words past the last shape are 0. */
#define BILZARKO_FORMATS 128
#define BILZARKO_FORMAT_WORDS 65  /* the header, and BILZARKO_FORMAT_SHAPES words */
#define BILZARKO_FORMAT_SHAPES 64 /* shapes of a format, at most */

/* Where in the store the formats of name number n begin. */
#define BILZARKO_FORMAT_ARGUMENT(n) (BILZARKO_FORMAT_WORDS * (2 * (size_t)(n)))
#define BILZARKO_FORMAT_RESULT(n) (BILZARKO_FORMAT_WORDS * (2 * (size_t)(n) + 1))

/* The parts of a header. The number of shapes is header % 256. */
#define BILZARKO_FORMAT_OPEN UINT32_C(256)
#define BILZARKO_FORMAT_NEVER UINT32_C(512)

/* The word of a shape: one of the first five; or, where word % 8 is BILZARKO_SHAPE_BRACKET, a bracket with
 * word / 8 % 128 shapes inside, whose contents are open where the word is at least BILZARKO_SHAPE_BRACKET_OPEN. */
#define BILZARKO_SHAPE_CHARACTER UINT32_C(0)
#define BILZARKO_SHAPE_NUMBER UINT32_C(1)
#define BILZARKO_SHAPE_IDENTIFIER UINT32_C(2)
#define BILZARKO_SHAPE_SYMBOL UINT32_C(3) /* a character, a number or an identifier */
#define BILZARKO_SHAPE_UNKNOWN UINT32_C(4)
#define BILZARKO_SHAPE_BRACKET UINT32_C(5)
#define BILZARKO_SHAPE_BRACKET_OPEN UINT32_C(1024)

/* Refusals: what a call returns where it does not return 0. Where several hold, the first in this order is returned. The
 * digit call refuses nothing.
 *
 *   findings, text and page
 *                       14, then 1;
 *                       then of the sections text, functions, sentences, conditions and terms, one after the other: 2 where
 *                       the count is cut off, 4 where it is over its limit, 2 where the records are cut off;
 *                       then 3, 5, 6, 7, 8, 9, 15, 10
 *   the findings call   then 11, where eight words for each finding are more than words_length
 *   the text call       then 11, where there are over BILZARKO_TEXT_FINDINGS findings; then 12, then 13
 *   the page call       then 11, where there are over BILZARKO_TEXT_FINDINGS findings; then 18
 *   the reading call    4, where the text has over BILZARKO_LAW_TEXT_BYTES bytes; 16; of the law file that it spells 1, 4, 5,
 *                       8, 9; then 17
 *
 * Each of 5 to 10 is looked for in the whole law before what comes after it in this order. 10 does not depend on the
 * settings; 11 and 12 count the findings that the settings show.
 *
 * After a refusal `answer`, `words`, `text`, `page` and the reading call's `law` hold what they held before. So does the
 * store after 1 to 9, 14 and 15. After 10 its first 8,320 words are 0; after 11, 12, 13 and 18 they hold the formats of the
 * law, as after a call that is not refused. Store words past 8,320 always keep their values. */
#define BILZARKO_REFUSAL_FILE_OVER UINT32_C(1)   /* the law has over 16,384 bytes */
#define BILZARKO_REFUSAL_CUT_OFF UINT32_C(2)     /* a section's count or records are cut off */
#define BILZARKO_REFUSAL_LEFT_OVER UINT32_C(3)   /* bytes are left over after the sections */
#define BILZARKO_REFUSAL_COUNT_OVER UINT32_C(4)  /* a section's count is over its limit: 4,096 bytes of text, 64 functions,
                                                    128 sentences, 128 conditions, 512 terms */
#define BILZARKO_REFUSAL_FIELDS UINT32_C(5)      /* a field's value is not allowed, or outside the text */
#define BILZARKO_REFUSAL_RUNS UINT32_C(6)        /* a record holds more records than its run has, or the sentences, the
                                                    conditions or the terms are not used up exactly */
#define BILZARKO_REFUSAL_BLOCKS UINT32_C(7)      /* a block's first sentence is not later than the one that the block
                                                    stands in */
#define BILZARKO_REFUSAL_DEPTH UINT32_C(8)       /* over 32 brackets, calls and blocks are around a term */
#define BILZARKO_REFUSAL_PATTERNS UINT32_C(9)    /* a sentence's pattern has over 32 distinct variables */
#define BILZARKO_REFUSAL_SHAPES UINT32_C(10)     /* over 64 shapes are in the format of a sentence's pattern, of its result
                                                    in a round, or of an argument compared by formats */
#define BILZARKO_REFUSAL_FINDINGS UINT32_C(11)   /* the findings do not fit */
#define BILZARKO_REFUSAL_NO_FINDING UINT32_C(12) /* text call: there is no finding at this position */
#define BILZARKO_REFUSAL_TEXT UINT32_C(13)       /* text call: the text does not fit */
#define BILZARKO_REFUSAL_SETTINGS UINT32_C(14)   /* the mode is not 0 or 1, there are over 8 overrides, or one has a lint
                                                    other than 1 to 4 or a severity other than 0 to 3 */
#define BILZARKO_REFUSAL_STORE UINT32_C(15)      /* the store has under 8,320 words */
#define BILZARKO_REFUSAL_GRAMMAR UINT32_C(16)    /* reading call: the text is outside the grammar, or not UTF-8 */
#define BILZARKO_REFUSAL_LAW UINT32_C(17)        /* reading call: the law file does not fit */
#define BILZARKO_REFUSAL_PAGE UINT32_C(18)       /* page call: the page does not fit */

/* Lists the findings of a law.
 *
 *   mode            BILZARKO_MODE_CLASSIC or BILZARKO_MODE_STRICT
 *   overrides       words made by BILZARKO_OVERRIDE; read only
 *   law             the bytes of a law file; read only
 *   store           gets the inferred formats in its first 8,320 words
 *   words           gets the findings, eight words each; they fit where 8 x their number is at most words_length
 *   answer          gets its three words, BILZARKO_ANSWER_FINDINGS and the others
 *
 * Returns 0, or the number of a refusal. Words past the last finding keep their values.
 *
 * Where 0 is returned and answer[BILZARKO_ANSWER_SETTLED] is 1, this is proved of the listing: there is no run of the law
 * in which a call listed under recognition impossible finds a sentence of its function whose left side matches, or in
 * which a function's sentence listed as dead is chosen. Numbers are the same where their values are: 007 is 7. */
uint32_t bilzarko_findings(uint32_t mode,
                           const uint32_t *overrides, size_t overrides_length,
                           const uint8_t *law, size_t law_length,
                           uint32_t *store, size_t store_length,
                           uint32_t *words, size_t words_length,
                           uint64_t answer[BILZARKO_ANSWER_WORDS]);

/* Writes the text of one finding. Mode, overrides, law and store are as for the findings call; with the same of them,
 * positions are those of its findings, from 0. The text call lists the findings anew, into 256 places of its own.
 *
 *   position        the finding
 *   text            gets the text, which is ASCII, with no zero byte after it; BILZARKO_TEXT_BYTES hold any text
 *   answer          gets the number of bytes written
 *
 * Returns 0, or the number of a refusal. Bytes past the text keep their values. */
uint32_t bilzarko_text(uint32_t mode,
                       const uint32_t *overrides, size_t overrides_length,
                       const uint8_t *law, size_t law_length,
                       uint32_t *store, size_t store_length,
                       size_t position,
                       uint8_t *text, size_t text_length,
                       uint64_t *answer);

/* Writes the findings of a law as printed pages. Mode, overrides, law and store are as for the findings call, and the lines
 * are in the order of its findings. As the text call, this one lists them into 256 places of its own.
 *
 *   page            gets the pages one after the other, which are ASCII, with no zero byte after them; BILZARKO_PAGE_BYTES
 *                   hold those of any law
 *   answer          gets the number of bytes written
 *
 * A line has 72 columns, filled up with spaces, and a line feed. A page has 60 lines at most. The first is a heading: the
 * number of the law's functions at the left, the page's number ending in column 72. Each further line is a finding, with a
 * space between its fields: the function's name in 24 columns, or its first 23 bytes and `+` where it is longer; `dead`,
 * `no match`, `builtin` or `open` in 8; `error`, `deny`, `warn` or `allow` in 5; span start, span end and A in 10 each, at
 * the right. A law without findings has one heading.
 *
 * Returns 0, or the number of a refusal. Bytes past the last page keep their values. */
uint32_t bilzarko_page(uint32_t mode,
                       const uint32_t *overrides, size_t overrides_length,
                       const uint8_t *law, size_t law_length,
                       uint32_t *store, size_t store_length,
                       uint8_t *page, size_t page_length,
                       uint64_t *answer);

/* Writes the law file of a law typed as Refal-5 text. docs/GRAMMAR.md has the grammar.
 *
 *   text            the bytes of the text, UTF-8; read only
 *   law             gets the law file; BILZARKO_LAW_BYTES hold any
 *   answer          gets the number of bytes written
 *
 * Returns 0, or the number of a refusal. Bytes past the law file keep their values. Spans in the law file, and so those of its
 * findings, are places in the text. */
uint32_t bilzarko_read(const uint8_t *text, size_t text_length,
                       uint8_t *law, size_t law_length,
                       uint64_t *answer);

/* What the digit call returns. It is no refusal. */
#define BILZARKO_DIGIT_PAST UINT32_C(0)    /* the value of the digits so far is past 4294967295, the greatest macrodigit */
#define BILZARKO_DIGIT_AT_MOST UINT32_C(1) /* the value of the digits so far is at most 4294967295 */
#define BILZARKO_DIGIT_NONE UINT32_C(2)    /* the byte is no digit */

/* The state before the first digit of a number. */
#define BILZARKO_DIGIT_START UINT32_C(0)

/* Takes the digits of a number one by one from the left, however many, and says after each whether the number so far is a
 * macrodigit: what the builtin lint asks of a number.
 *
 *   state           BILZARKO_DIGIT_START before the first digit; then what the call left
 *   digit           a byte: an ASCII digit, or another, which leaves the state as it was
 *
 * After a digit the state is the value of the digits so far, or 4294967296 where that is less. Any other word may be lent as
 * the state: it is read as the value that it is. */
uint32_t bilzarko_digit(uint64_t *state, uint8_t digit);

#ifdef __cplusplus
}
#endif

#endif
