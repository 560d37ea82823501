/* Memory between pages that nobody may touch, so that an access of one byte outside a slice faults at full speed. */
#define _DEFAULT_SOURCE
#include <stdio.h>
#include <stdlib.h>
#include <sys/mman.h>
#include <unistd.h>

#include "boundary.h"

/* Room for the largest text that a call can write: three bytes for each of 16,777,216. Pages that are not used cost
 * nothing. AROUND: how much next to a lent buffer is watched. */
enum { ROOM = 52 << 20, AROUND = 64, PATTERN = 4096 };

enum side side;
enum mode mode;

static uint8_t *low[AREAS], *high[AREAS];

/* The pattern of an address is that of its last 8 bits. */
static uint8_t pattern[256 + PATTERN];

void begin_memory(void)
{
    size_t page = (size_t)sysconf(_SC_PAGESIZE);
    for (int i = 0; i < AREAS; i++) {
        uint8_t *at = mmap(NULL, ROOM + 2 * page, PROT_NONE, MAP_PRIVATE | MAP_ANONYMOUS | MAP_NORESERVE, -1, 0);
        if (at == MAP_FAILED || mprotect(at + page, ROOM, PROT_READ | PROT_WRITE) != 0) {
            perror("boundary: guard pages");
            exit(2);
        }
        low[i] = at + page;
        high[i] = low[i] + ROOM;
    }
    for (size_t i = 0; i < sizeof pattern; i++)
        pattern[i] = (uint8_t)(167 * (i & 255) + 13);
}

uint8_t *area(enum area which, size_t len)
{
    if (len > ROOM) {
        fputs("boundary: no room\n", stderr);
        exit(2);
    }
    return side == AT_END ? high[which] - len : low[which];
}

struct bytes lay(enum area which, struct bytes from)
{
    uint8_t *to = area(which, from.len);
    if (from.len > 0)
        memmove(to, from.at, from.len);
    return (struct bytes){to, from.len};
}

struct parts laid(const struct parts *from)
{
    struct parts p = *from;
    p.guid = lay(GUID, p.guid);
    p.name = lay(NAME, p.name);
    p.type_name = lay(TYPE_NAME, p.type_name);
    p.comment = lay(COMMENT, p.comment);
    p.block = lay(BLOCK, p.block);
    p.chain = lay(CHAIN, p.chain);
    return p;
}

static size_t shorter(size_t a, size_t b)
{
    return a < b ? a : b;
}

static uint8_t *before(enum area which, struct room room)
{
    return room.at - shorter(AROUND, (size_t)(room.at - low[which]));
}

static uint8_t *behind(enum area which, struct room room)
{
    uint8_t *end = room.at + room.len;
    return end + shorter(AROUND, (size_t)(high[which] - end));
}

static struct room lend_in(enum area which, size_t len)
{
    struct room room = {area(which, len), len};
    uint8_t *end = behind(which, room);
    for (uint8_t *at = before(which, room); at < end;) {
        size_t n = shorter(PATTERN, (size_t)(end - at));
        memcpy(at, pattern + ((uintptr_t)at & 255), n);
        at += n;
    }
    return room;
}

struct room lend(size_t len)
{
    return lend_in(OUT, len);
}

struct room lend_runs(size_t slots)
{
    return lend_in(RUNS, 4 * slots);
}

static bool patterned(const uint8_t *at, const uint8_t *end)
{
    while (at < end) {
        size_t n = shorter(PATTERN, (size_t)(end - at));
        if (memcmp(at, pattern + ((uintptr_t)at & 255), n) != 0)
            return false;
        at += n;
    }
    return true;
}

/* What stood beside the buffers that a call is lent, at most one in each area. */
static struct beside {
    uint8_t before[AROUND], behind[AROUND];
} was[AREAS];

void watch(enum area which, struct room room)
{
    if (room.at == NULL)
        return;
    memcpy(was[which].before, before(which, room), (size_t)(room.at - before(which, room)));
    memcpy(was[which].behind, room.at + room.len, (size_t)(behind(which, room) - room.at) - room.len);
}

bool kept(enum area which, struct room room, size_t written)
{
    if (room.at == NULL)
        return written == 0;
    const uint8_t *first = before(which, room), *end = room.at + room.len;
    return written <= room.len && patterned(room.at + written, end) &&
           memcmp(was[which].before, first, (size_t)(room.at - first)) == 0 &&
           memcmp(was[which].behind, end, (size_t)(behind(which, room) - end)) == 0;
}
