#define _DEFAULT_SOURCE
#include "guard.h"
#include <stdio.h>
#include <stdlib.h>
#include <string.h>
#include <sys/mman.h>
#include <unistd.h>

enum { GUARDS = 64 };
static const uint32_t guard_word = 0xb5a1c3d7u;

static void must(bool done, const char *what)
{
    if (done) return;
    perror(what);
    exit(2);
}

/* Maps the room's pages. */
static void make(struct guarded *room)
{
    size_t page = (size_t)sysconf(_SC_PAGESIZE);
    size_t bytes = ((room->most + GUARDS) * sizeof(uint32_t) + page - 1) / page * page;
    unsigned char *base = mmap(NULL, bytes + 2 * page, PROT_NONE, MAP_PRIVATE | MAP_ANONYMOUS, -1, 0);
    must(base != MAP_FAILED, "mmap");
    room->begin = (uint32_t *)(void *)(base + page);
    room->end = (uint32_t *)(void *)(base + page + bytes);
}

static void protect(const struct guarded *room, int how)
{
    must(!mprotect(room->begin, (size_t)(room->end - room->begin) * sizeof *room->begin, how), "mprotect");
}

/* The guard words stand before a list at the room's end, and after one at its begin. */
static uint32_t *guards_of(const struct guarded *room)
{
    return room->words == room->begin ? room->words + room->len : room->words - GUARDS;
}

uint32_t *guard_lend(struct guarded *room, struct list contents, uint32_t choices)
{
    if (!room->begin) make(room);
    must(contents.len <= room->most, "a list longer than its room");
    protect(room, PROT_READ | PROT_WRITE);
    room->words = choices & LISTS_BEGIN ? room->begin : room->end - contents.len;
    room->len = contents.len;
    if (contents.len) memcpy(room->words, contents.words, contents.len * sizeof *contents.words);
    for (size_t i = 0; i < GUARDS; i++) guards_of(room)[i] = guard_word;
    if (contents.len) return room->words;
    return choices & EMPTY_POINTS ? room->end : NULL;
}

struct list guard_lend_locked(struct guarded *room, struct list contents, uint32_t choices)
{
    struct list lent = {guard_lend(room, contents, choices), contents.len};
    protect(room, PROT_READ);
    return lent;
}

bool guard_intact(const struct guarded *room)
{
    const uint32_t *guards = guards_of(room);
    for (size_t i = 0; i < GUARDS; i++)
        if (guards[i] != guard_word) return false;
    return true;
}

bool same_words(const uint32_t *a, const uint32_t *b, size_t len) { return !len || !memcmp(a, b, len * sizeof *a); }
