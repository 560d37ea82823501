/* Tries the boundary between C and the library, hard. docs/BOUNDARY.md says what is tried.
 *
 *   boundary [--to-failure] CASES [SEED [FIRST]]
 *
 * CASES random cases, from case FIRST (0) of a seed (1). Prints the first failed checks with their file and line, then
 * how many checks of each group and how many calls of each function were made. Status 0 only where no check failed,
 * there was at least one of each, and each function was seen with every status that is documented for it. With
 * --to-failure it ends at the first failed check: for wrong versions, of which one is enough.
 */
#define _POSIX_C_SOURCE 200809L
#include <signal.h>
#include <stdarg.h>
#include <stdio.h>
#include <stdlib.h>
#include <string.h>
#include <unistd.h>

#include "boundary.h"

static const char *const groups[GROUPS] = {
    [FRAMES] = "guard words, slots, guids and answers",
    [STATUSES] = "a documented status",
    [OUTPUTS] = "lent buffers and the bytes beside them",
    [INPUTS] = "inputs unchanged",
    [EMPTY] = "empty slices and null pointers",
    [ROOMS] = "a lent buffer of every length",
    [NEIGHBOURS] = "an input and a lent buffer side by side",
    [LIMITS] = "16,777,216 bytes and one more",
    [LENGTHS] = "strings, counts and guids of the longest lengths",
    [READS] = "entries and records, read",
    [NUMBERED] = "attributes and refactor records by number",
    [NAMED] = "attributes by name, found",
    [ALIKE] = "attributes by name, found before another of that name",
    [UNNAMED] = "attributes by name, none of that name there",
    [PLACES] = "places and lengths inside the entry",
    [WALKS] = "steps and walks",
    [WRITES] = "entries and records, written",
    [ROUND_TRIPS] = "written, then read again",
    [FINDS] = "index and finding",
    [FINDS_PASS] = "symbols by name, one that has it passed over for its end byte",
    [INDEX_PASSES] = "the index, entries passed over for an end byte",
    [CAPITALS] = "names in capitals and small letters",
    [OTHER_CASE] = "symbols by name, found in another case than asked",
    [EARLIER] = "symbols by name, found before one that has the very bytes asked",
    [NEAR_CASE] = "symbols by name, none there but one that differs in bit 5 alone",
    [HIGHS_READ] = "bytes 22 and 23 of a symbol, read where they are not zeros",
    [HIGHS_WRITTEN] = "bytes 22 and 23 of a symbol, written where they are not zeros",
    [HIGHS_APART] = "bytes 22 and 23 of a symbol, on which nothing else depends",
    [WHYS] = "why sections are there or not",
    [WHY_NOT_FLAGGED] = "a section that is not flagged",
    [WHY_NO_FLAGS] = "a chain without extended flags that would flag it",
    [WHY_NO_ROOM] = "a section that is flagged, with too few bytes left",
    [WHY_WHOLE] = "a section that is shown whole",
    [WHY_NONE_ANNOUNCED] = "attributes of which none are announced",
    [WHY_REFUSED] = "a list of which a record is refused",
    [WHY_END_BEHIND_COUNT] = "attributes of which the entry ends behind the count",
    [WHY_OWED] = "attributes that are owed where the entry ends",
    [WHY_SHOWN] = "as much shown as the reasons say, and where they say",
    [WHY_ACCEPTED] = "sections explained alike where the checked mode accepts",
    [STAYS] = "the checked mode, told as in the present one",
    [ENDS] = "end bytes of entries and of records, one, two and all at a time",
    [ENDS_APART] = "bytes that are no end bytes, on which 16 does not depend",
    [ENDS_NAME] = "an entry refused for its name's end byte",
    [ENDS_TYPE] = "an entry refused for its type's end byte",
    [ENDS_COMMENT] = "an entry refused for its comment's end byte",
    [ENDS_ATTRIBUTE_NAME] = "an entry refused for the end byte of an attribute's name",
    [ENDS_ATTRIBUTE_VALUE] = "an entry refused for the end byte of an attribute's value",
    [ENDS_FORMER] = "a symbol refused for an end byte in its chain",
    [ENDS_ALONE] = "a record or a chain by itself refused for an end byte",
    [ENDS_BEFORE_SHORT] = "an entry refused for an attribute's end byte, before an attribute that is short",
    [ENDS_IN_DROPPED] = "a symbol refused for an end byte, before a record that is short, in its chain",
    [SHORT_FIRST] = "an attribute that is short before its end byte is looked at",
    [SKIPPED_ITEMS] = "a field accepted beside end bytes of sub-items that are not 0",
    [SKIPPED_METHODS] = "a field accepted beside end bytes of methods that are not 0",
    [UNREAD_ENDS] = "a symbol accepted before unread records whose end byte is not 0",
    [BEHIND_ENDS] = "an entry accepted before a record behind it whose end byte is not 0",
    [SALVAGES] = "an upload salvaged: status, figures, bytes kept and runs dropped",
    [SALVAGES_SHORT_OF] = "an upload not salvaged, a lent buffer being too small",
    [SALVAGES_COVER] = "an upload salvaged: kept entries and dropped runs are the whole of it",
    [SALVAGES_AGAIN] = "what was kept, walked without a refusal and salvaged again",
    [RUNS_NONE] = "an upload of which nothing is dropped",
    [RUNS_SHORT] = "a dropped run, claiming less than a header",
    [RUNS_TAIL] = "a dropped run, fewer than 4 bytes at the end",
    [RUNS_STRINGS] = "a dropped run, its strings leaving the entry",
    [RUNS_BEYOND] = "a dropped run, claiming more than there is",
    [RUNS_ZERO] = "a dropped run, claiming nothing and going to the end",
    [RUNS_ENDS] = "a dropped run, an end byte that is not 0",
    [RUNS_ADJACENT] = "a dropped run right behind another",
    [ROOM_LENGTHS] = "the room of a length",
    [ROOM_ABOVE] = "the room of a length above the limit",
    [ROOM_STEPS] = "no more steps than bytes, and no more entries than a 33rd of them",
    [ROOM_ENOUGH] = "an index lent the room of its upload",
    [ROOM_FULL] = "an index that needs all of the room of its upload",
    [ROOM_STOPPED] = "an index lent the room of its upload, stopped by a zero claim",
    [NAMES_BUILT] = "a name index, built: the starts in the order of the names",
    [NAMES_SHORT_OF] = "a name index not built, too few slots being lent",
    [NAMES_FOUND] = "a name found by halving",
    [NAMES_TWINS] = "a name found by halving, the first in the upload of several that have it",
    [NAMES_NONE] = "a name not found by halving",
    [NAMES_ELSEWHERE] = "a name asked by halving of slots that are no name index",
    [STARTS_BUILT] = "an index of any kind, built: the starts in the order of the upload",
    [STARTS_WALKED] = "a name found without an index, of any kind",
    [STARTS_INDEXED] = "a name found through slots in their order, of any kind",
    [STARTS_STOPPED] = "a name asked of an upload with a zero claim, of any kind",
    [BRANCHES] = "a branch asked of a name index",
    [BRANCHES_HALVED] = "a branch asked of a name index by halving",
    [BRANCHES_SHORT_OF] = "a branch not written, too few places being lent",
    [BRANCHES_ELSEWHERE] = "a branch asked of slots that are no name index",
    [LINES_SPLIT] = "an upload split into lines",
    [LINES_JOINED] = "lines joined to an upload",
    [LINES_BAD] = "lines with another character or an odd number of digits",
    [LINES_SHORT_OF] = "lines neither split nor joined, too little being lent",
    [PLAIN] = "an upload in plain form",
    [PLAIN_DEPARTS] = "an upload that departs from plain form, at its place",
    [PLAIN_REFUSED] = "an upload with a refused entry, asked for its plain form",
    [SHEETS] = "a sheet, written: status, figures and text",
    [SHEETS_SHORT_OF] = "a sheet not written, too few bytes being lent",
    [SHEETS_QUOTED] = "a sheet with a cell between quotes",
    [SHEETS_REFUSED] = "an upload that has no sheet",
    [IMPORTS] = "a sheet imported: status, figures and upload",
    [IMPORTS_SHORT_OF] = "a sheet not imported, too few bytes being lent",
    [IMPORTS_REFUSED] = "a sheet that is not imported: status and figures",
    [WORDS] = "the words of a refusal: how many bytes, and which",
    [WORDS_SHORT_OF] = "the words of a refusal not written, too few bytes being lent",
    [WORDS_OF_NONE] = "the words of a number that no refusal has",
    [TEXTS] = "text there and back",
    [COUNTED] = "text lent just enough, a byte less and nothing",
    [TYPES_READ] = "data types, the root's record",
    [TYPES_ARRAYS] = "data types, array records by number",
    [TYPES_ATTRIBUTES] = "data types, attributes by number and by name",
    [TYPES_MEMBERS] = "data types, members by number",
    [TYPES_PATHS] = "data types, a member's path of places that lead to it",
    [TYPES_LISTED] = "data types, all members in one pass",
    [TYPES_SLOTS] = "data types, all members with just enough slots, one fewer and none",
    [TYPES_FROM_PLACE] = "data types, a member read from its place on",
    [TYPES_AS_FIELD] = "data types, what the field reader tells too",
    [TYPES_WALKED] = "data types, steps",
    [TYPES_CLAIM] = "a data type refused for its own length",
    [TYPES_STRINGS] = "a data type refused for strings that leave an entry",
    [TYPES_ENDS] = "a data type refused for the end byte of a name, a type or a comment",
    [TYPES_BOUNDS] = "a data type refused for array records that leave an entry",
    [TYPES_TOO_DEEP] = "a data type refused for its depth",
    [TYPES_LEFT] = "a data type refused for a sub-item of which fewer than 4 bytes are left",
    [TYPES_LEAVES] = "a data type refused for a sub-item that leaves its parent",
    [TYPES_BELOW] = "a data type refused for a sub-item that claims less than a header",
    [TYPES_ATTRIBUTE] = "a data type refused for an attribute",
    [TYPES_ATTRIBUTE_ENDS] = "a data type refused for an attribute's end byte",
    [TYPES_DEEPEST] = "data types of depth 16",
    [TYPES_EVERY_DEPTH] = "each refusal of a data type, met at each depth",
    [TYPES_MANY] = "data types, as many sub-items and array records as there can be",
    [BOUND_KNOWN] = "a path whose address, or refusal, is worked out by hand",
    [BOUND_SYMBOL] = "a path bound to a symbol",
    [BOUND_MEMBER] = "a path bound to a member",
    [BOUND_ELEMENT] = "a path bound to an element",
    [BOUND_BITS] = "a path bound to a size in bits",
    [BOUND_ALIAS] = "a path bound through data types that only name the next",
    [BOUND_ELSEWHERE] = "a path bound through slots that are no name index",
    [UNBOUND_SYMBOL] = "a path that begins with the name of no symbol",
    [UNBOUND_MEMBER] = "a path of a member that is not there",
    [UNBOUND_TYPE] = "a path through a data type that is not there",
    [UNBOUND_OUTSIDE] = "a path with a subscript outside its bounds",
    [UNBOUND_PATH] = "a text that is no path",
    [UNBOUND_DIMENSIONS] = "a path with too many subscripts, or too few",
    [UNBOUND_OFFSET] = "a path through what has no offset",
    [UNBOUND_FAR] = "a path to an offset above 32 bits",
    [UNBOUND_ALIASES] = "a path through too many data types that only name the next",
};

enum { SHOWN = 20 };

uint64_t checks[GROUPS];
uint64_t now_trying = NO_CASE;

static uint64_t seed_number, failures;
static bool to_failure;

static void where(char *to, size_t room)
{
    static const char *const modes[MODES] = {"no mode given", "the present mode given", "the checked mode given"};
    const char *touching = side == AT_END ? "end" : "start", *given = modes[mode < MODES ? mode : PRESENT];
    if (now_trying == NO_CASE)
        snprintf(to, room, "slices at their %s, %s", touching, given);
    else
        snprintf(to, room, "seed %llu case %llu, slices at their %s, %s", (unsigned long long)seed_number,
                 (unsigned long long)now_trying, touching, given);
}

void failed(const char *file, int line, enum group group, const char *format, ...)
{
    char place[120];
    va_list more;
    checks[group]++;
    if (failures++ >= SHOWN)
        return;
    where(place, sizeof place);
    printf("%s:%d: %s: ", file, line, groups[group]);
    va_start(more, format);
    vprintf(format, more);
    va_end(more);
    printf(" (%s)\n", place);
    if (to_failure) {
        puts("boundary: 1 of the checks failed, and none was made after it");
        exit(1);
    }
}

/* An access outside what was lent ends the program: nothing after it can be trusted. */
static void faulted(int number, siginfo_t *info, void *context)
{
    char place[120], line[300];
    (void)context;
    where(place, sizeof place);
    int len = snprintf(line, sizeof line, "boundary: FAULT (signal %d) in %s at address %p (%s)\n", number,
                       name_of(calling), info->si_addr, place);
    if (write(STDOUT_FILENO, line, (size_t)len) != len)
        _exit(3);
    _exit(1);
}

static void catch_faults(void)
{
    struct sigaction action = {.sa_sigaction = faulted, .sa_flags = SA_SIGINFO};
    sigemptyset(&action.sa_mask);
    if (sigaction(SIGSEGV, &action, NULL) != 0 || sigaction(SIGBUS, &action, NULL) != 0) {
        perror("boundary");
        exit(2);
    }
}

static uint64_t number_from(const char *text)
{
    char *end;
    uint64_t n = strtoull(text, &end, 10);
    if (*text < '0' || *text > '9' || *end != '\0') {
        fprintf(stderr, "boundary: %s is no number\n", text);
        exit(2);
    }
    return n;
}

/* A group without a check, or a function that was not called or not seen with all of its statuses, is a failure of the
 * tests themselves. */
static int report(uint64_t cases)
{
    uint64_t all = 0, missing = 0;
    for (int i = 0; i < GROUPS; i++) {
        printf("%12llu checks: %s%s\n", (unsigned long long)checks[i], groups[i], checks[i] == 0 ? "  NONE MADE" : "");
        all += checks[i];
        missing += checks[i] == 0;
    }
    for (int i = 0; i < FUNCTIONS; i++) {
        bool lacks = calls[i] == 0 || !all_seen(i);
        printf("%12llu calls: %s%s\n", (unsigned long long)calls[i], name_of(i),
               lacks ? "  A STATUS WAS NEVER SEEN" : "");
        missing += lacks;
    }
    printf("%12d calls: vindaskot_interface_2\n", 1);
    printf("boundary: %llu of %llu checks failed, %llu groups or functions left out; %llu random cases, seed %llu\n",
           (unsigned long long)failures, (unsigned long long)all, (unsigned long long)missing,
           (unsigned long long)cases, (unsigned long long)seed_number);
    return failures + missing > 0;
}

int main(int argc, char **argv)
{
    to_failure = argc > 1 && strcmp(argv[1], "--to-failure") == 0;
    argc -= to_failure;
    argv += to_failure;
    if (argc < 2 || argc > 4) {
        fputs("usage: boundary [--to-failure] CASES [SEED [FIRST]]\n", stderr);
        return 2;
    }
    if (vindaskot_interface_2() != VINDASKOT_INTERFACE) {
        fputs("boundary: the archive has another interface than the header\n", stderr);
        return 1;
    }
    uint64_t cases = number_from(argv[1]), first = argc > 3 ? number_from(argv[3]) : 0;
    seed_number = argc > 2 ? number_from(argv[2]) : 1;
    setvbuf(stdout, NULL, _IOLBF, 0);
    begin_memory();
    begin_calls();
    catch_faults();
    seed(seed_number);
    try_edges();
    try_random(first, cases, seed_number);
    now_trying = NO_CASE;
    try_limits();
    return report(cases);
}
