#define _GNU_SOURCE
#include "guarded.h"

#include <stdio.h>
#include <stdlib.h>
#include <string.h>
#include <sys/mman.h>
#include <unistd.h>

static void must(bool done, const char *what)
{
    if (!done) {
        perror(what);
        exit(2);
    }
}

static size_t whole_pages(size_t room)
{
    size_t page = (size_t)sysconf(_SC_PAGESIZE);
    return (room + page - 1) / page * page;
}

/* Maps the file between two stretches of pages without access. */
static uint8_t *between_guards(int file, size_t room, int access)
{
    size_t guard = whole_pages(1 << 20);
    uint8_t *all = mmap(NULL, room + 2 * guard, PROT_NONE, MAP_PRIVATE | MAP_ANONYMOUS, -1, 0);
    must(all != MAP_FAILED, "mmap");
    uint8_t *inner = mmap(all + guard, room, access, MAP_SHARED | MAP_FIXED, file, 0);
    must(inner != MAP_FAILED, "mmap");
    return inner;
}

static int file_of(size_t room)
{
    int file = memfd_create("lent", 0);
    must(file >= 0, "memfd_create");
    must(ftruncate(file, (off_t)room) == 0, "ftruncate");
    return file;
}

struct guarded guarded_table(size_t wanted)
{
    size_t room = whole_pages(wanted);
    int file = file_of(room);
    struct guarded memory = { .lent = between_guards(file, room, PROT_READ), .room = room };
    memory.writable = between_guards(file, room, PROT_READ | PROT_WRITE);
    close(file);
    return memory;
}

struct guarded guarded_buffer(size_t wanted)
{
    size_t room = whole_pages(wanted);
    int file = file_of(room);
    struct guarded memory = { .lent = between_guards(file, room, PROT_READ | PROT_WRITE), .room = room };
    memory.writable = memory.lent;
    close(file);
    return memory;
}

struct part guarded_part(const struct guarded *memory, size_t length, bool at_end)
{
    return (struct part) { at_end ? memory->room - length : 0, length };
}

void guarded_fill(const struct guarded *memory, struct part part, const uint8_t *bytes)
{
    if (part.length > 0)
        memcpy(memory->writable + part.start, bytes, part.length);
}

/* The canary bytes stand before a part at the end and after a part at the start, as far as there is room. */
static struct part canary(const struct guarded *memory, struct part part)
{
    bool at_end = part.start > 0;
    size_t space = at_end ? part.start : memory->room - part.length;
    size_t length = space < CANARY ? space : CANARY;
    return (struct part) { at_end ? part.start - length : part.length, length };
}

static uint8_t pattern(size_t at, uint8_t seed)
{
    return (uint8_t)(seed + at * 29);
}

void guarded_set_pattern(const struct guarded *memory, struct part part, uint8_t seed)
{
    struct part side = canary(memory, part);
    for (size_t i = 0; i < part.length; i++)
        memory->writable[part.start + i] = pattern(part.start + i, seed);
    for (size_t i = 0; i < side.length; i++)
        memory->writable[side.start + i] = pattern(side.start + i, seed);
}

bool guarded_has_pattern_from(const struct guarded *memory, struct part part, size_t offset, uint8_t seed)
{
    struct part side = canary(memory, part);
    for (size_t i = 0; i < side.length; i++)
        if (memory->writable[side.start + i] != pattern(side.start + i, seed))
            return false;
    for (size_t i = offset; i < part.length; i++)
        if (memory->writable[part.start + i] != pattern(part.start + i, seed))
            return false;
    return true;
}
