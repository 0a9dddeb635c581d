#define _DEFAULT_SOURCE /* for MAP_ANONYMOUS */
#include "area.h"

#include <stdio.h>
#include <stdlib.h>
#include <sys/mman.h>
#include <unistd.h>

static void must(int good, const char *what)
{
    if (good)
        return;
    perror(what);
    exit(2);
}

struct area area_new(size_t least)
{
    size_t page = (size_t)sysconf(_SC_PAGESIZE);
    size_t size = (least + page - 1) / page * page;
    uint8_t *whole =
        (uint8_t *)mmap(NULL, size + 2 * page, PROT_NONE, MAP_PRIVATE | MAP_ANONYMOUS, -1, 0);
    struct area area;

    must(whole != MAP_FAILED, "mmap");
    area.data = whole + page;
    area.size = size;
    area_writable(area);
    return area;
}

uint8_t *area_place(struct area area, size_t length, enum flush flush)
{
    if (length > area.size) {
        fprintf(stderr, "a buffer of %zu bytes does not fit\n", length);
        exit(2);
    }
    return flush == FLUSH_WITH_START ? area.data : area.data + area.size - length;
}

void area_read_only(struct area area)
{
    must(mprotect(area.data, area.size, PROT_READ) == 0, "mprotect");
}

void area_writable(struct area area)
{
    must(mprotect(area.data, area.size, PROT_READ | PROT_WRITE) == 0, "mprotect");
}
