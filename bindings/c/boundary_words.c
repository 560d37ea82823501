/* The words of refusals, told by number and figures: what is expected are the words of crates/refusal, as they stand here. */
#include <stdio.h>

#include "boundary.h"

/* ---- The model ---- */

enum { MOST = VINDASKOT_REFUSAL_TEXT_MOST, NUMBERS = 25 };

/* Which figures the words tell, in their order. */
enum figures { NONE, EXPECTED, GOT, EXPECTED_GOT, GOT_EXPECTED };

static const struct {
    const char *words;
    enum figures figures;
} refusals[NUMBERS] = {
    [VINDASKOT_REFUSED_UNEXPECTED_LENGTH] = {"unexpected length: %llu needed, %llu present", EXPECTED_GOT},
    [VINDASKOT_REFUSED_TOO_SHORT] = {"too short: %llu needed, %llu present", EXPECTED_GOT},
    [VINDASKOT_REFUSED_ENTRY_LENGTH_MISMATCH] = {"entry length mismatch: %llu claimed or needed, %llu available",
                                                 EXPECTED_GOT},
    [VINDASKOT_REFUSED_CLAIM_BELOW_HEADER] = {"claim below the header: %llu in the header, %llu claimed", EXPECTED_GOT},
    [VINDASKOT_REFUSED_TOO_LARGE] = {"too large: 16777216 at most, %llu given", GOT},
    [VINDASKOT_REFUSED_OUTPUT_TOO_SMALL] = {"output too small: %llu needed, %llu lent", EXPECTED_GOT},
    [VINDASKOT_REFUSED_TOO_LONG] = {"string or count too long: %llu at most, %llu given", EXPECTED_GOT},
    [VINDASKOT_REFUSED_SECTIONS_DISAGREE] = {"symbol flags and sections disagree: section %llu", EXPECTED},
    [VINDASKOT_REFUSED_BAD_BLOCK] = {"block is not its count of good records: %llu counted, %llu good at its start",
                                     EXPECTED_GOT},
    [VINDASKOT_REFUSED_ZERO_ENTRY_LENGTH] = {"zero entry length: 1 at least, 0 claimed", NONE},
    [VINDASKOT_REFUSED_BAD_TEXT] = {"text: fault %llu at byte %llu", GOT_EXPECTED},
    [VINDASKOT_REFUSED_BAD_HEXADECIMAL] = {"bad hexadecimal line", NONE},
    [VINDASKOT_REFUSED_NAME_NOT_FOUND] = {"name not found", NONE},
    [VINDASKOT_REFUSED_NO_SUCH_NUMBER] = {"no such number: %llu there, %llu asked", EXPECTED_GOT},
    [VINDASKOT_REFUSED_TOO_DEEP] = {"data type entries nest too deep: 16 deep at most, 17 deep met", NONE},
    [VINDASKOT_REFUSED_END_BYTE] = {"end byte is not 0: %llu at byte %llu", GOT_EXPECTED},
    [VINDASKOT_REFUSED_NOT_IN_SHEET] = {"not for a sheet: entry %llu, reason %llu", EXPECTED_GOT},
    [VINDASKOT_REFUSED_BAD_SHEET] = {"bad sheet: row %llu, column %llu", EXPECTED_GOT},
    [VINDASKOT_REFUSED_NOT_PLAIN] = {"not in plain form: byte %llu departs", EXPECTED},
    [VINDASKOT_REFUSED_BAD_PATH] = {"no path of a variable: fault at byte %llu", EXPECTED},
    [VINDASKOT_REFUSED_WRONG_DIMENSIONS] = {"wrong dimensions: subscripts at byte %llu of the path, %llu dimensions there",
                                            EXPECTED_GOT},
    [VINDASKOT_REFUSED_NO_OFFSET] = {"no offset: flag %llu at byte %llu of the path", GOT_EXPECTED},
    [VINDASKOT_REFUSED_OFFSET_TOO_LARGE] = {"index offset too large: 4294967295 at most, %llu here", GOT},
    [VINDASKOT_REFUSED_TOO_MANY_ALIASES] = {"too many aliases: more than 16 at byte %llu of the path", EXPECTED},
};

/* Of a path, what has no name is a member, 1, or a data type, 2. */
static const char *const unfound[] = {"name not found", "name not found: no member at byte %llu of the path",
                                      "name not found: no data type at byte %llu of the path"};

/* The words, and how many bytes they are. */
static size_t model_words(char words[MOST + 1], uint32_t number, uint64_t expected, uint64_t got)
{
    const unsigned long long e = expected, g = number == VINDASKOT_REFUSED_END_BYTE ? got % 256 : got;
    const char *as = refusals[number].words;
    if (number == VINDASKOT_REFUSED_NAME_NOT_FOUND && (got == 1 || got == 2))
        return (size_t)snprintf(words, MOST + 1, unfound[got], e);
    switch (refusals[number].figures) {
    case EXPECTED: return (size_t)snprintf(words, MOST + 1, as, e);
    case GOT: return (size_t)snprintf(words, MOST + 1, as, g);
    case EXPECTED_GOT: return (size_t)snprintf(words, MOST + 1, as, e, g);
    case GOT_EXPECTED: return (size_t)snprintf(words, MOST + 1, as, g, e);
    default: return (size_t)snprintf(words, MOST + 1, "%s", as);
    }
}

/* ---- Checks ---- */

/* Lent none, a byte too few, just enough and more. */
void try_words(uint32_t number, uint64_t expected, uint64_t got)
{
    char words[MOST + 1];
    const size_t needed = model_words(words, number, expected, got);
    const size_t lent[] = {0, needed - 1, needed, needed + 3, MOST};
    CHECK(WORDS, needed <= MOST, "the words of refusal %u are %zu bytes", (unsigned)number, needed);
    for (size_t i = 0; i < sizeof lent / sizeof *lent; i++) {
        struct room out = lend(lent[i]);
        bool short_of = lent[i] < needed;
        SAME(short_of ? WORDS_SHORT_OF : WORDS, call_refusal_text(number, expected, got, out),
             short_of ? refused(6, needed, lent[i]) : done(needed, 0));
        CHECK(WORDS, short_of || memcmp(out.at, words, needed) == 0, "refusal %u (%llu, %llu) has other words than \"%s\"",
              (unsigned)number, (unsigned long long)expected, (unsigned long long)got, words);
    }
}

/* Figures of each count of digits, in every refusal, and numbers that no refusal has. */
void try_all_words(void)
{
    static const uint32_t none[] = {0, 100, 101, 255, 256, 257, 65536 + 2, UINT32_MAX};
    for (uint32_t number = 1; number < NUMBERS; number++) {
        try_words(number, 0, UINT64_MAX);
        try_words(number, UINT64_MAX, 0);
        try_words(number, UINT64_MAX, UINT64_MAX);
        for (uint64_t n = 1; n <= 1000000000000000000; n *= 10) {
            try_words(number, n, n - 1);
            try_words(number, n - 1, n);
        }
    }
    for (size_t i = 0; i < sizeof none / sizeof *none; i++)
        SAME(WORDS_OF_NONE, call_refusal_text(none[i], 1, 2, lend(MOST)), refused(14, NUMBERS - 1, none[i]));
    for (uint32_t number = NUMBERS; number < 100; number++)
        SAME(WORDS_OF_NONE, call_refusal_text(number, 1, 2, lend(0)), refused(14, NUMBERS - 1, number));
    SAME(EMPTY, call_refusal_text(13, 0, 0, (struct room){NULL, 0}), refused(6, 14, 0));
}
