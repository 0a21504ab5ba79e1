#define _DEFAULT_SOURCE
#include "area.h"

#include <stdlib.h>
#include <sys/mman.h>
#include <unistd.h>

static void must(int done)
{
    if (!done) {
        abort();
    }
}

void area_map(struct area *area, size_t longest)
{
    size_t page = (size_t)sysconf(_SC_PAGESIZE);
    size_t room = (longest + page - 1) / page * page;
    uint8_t *map = mmap(NULL, room + 2 * page, PROT_NONE, MAP_PRIVATE | MAP_ANONYMOUS, -1, 0);
    must(map != MAP_FAILED);
    area->room = map + page;
    area->room_length = room;
    area_open(area);
    area_place(area, 0, AT_BEGIN);
}

void area_place(struct area *area, size_t length, enum place place)
{
    must(length <= area->room_length);
    area->bytes = place == AT_BEGIN ? area->room : area->room + area->room_length - length;
    area->length = length;
}

void area_shut(const struct area *area)
{
    must(mprotect(area->room, area->room_length, PROT_READ) == 0);
}

void area_open(const struct area *area)
{
    must(mprotect(area->room, area->room_length, PROT_READ | PROT_WRITE) == 0);
}
