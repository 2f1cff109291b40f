/* Shows what house_compose and house_level answer on plain numbers, one line each.
   `tools/office` builds and runs it. */
#include "house.h"

/* From the C library. It is declared here, so that no system header is needed. */
int printf(const char *format, ...);

static void compose(uint32_t entry, uint32_t pages, uint32_t access)
{
    uint32_t page = house_compose(entry, pages, access);

    printf("entry 0x%08X, %u pages, %s: ", entry, pages, access == HOUSE_LOAD ? "load" : "store");
    if (page == HOUSE_FAULT)
        printf("fault\n");
    else
        printf("page %u\n", page);
}

static void level(uint32_t causes)
{
    printf("causes %u: level %u\n", causes, house_level(causes));
}

int main(void)
{
    /* Page 3, valid: in a house of 4 pages, and in one of 3. */
    compose(0x00003800, 4, HOUSE_LOAD);
    compose(0x00003800, 4, HOUSE_STORE);
    compose(0x00003800, 3, HOUSE_LOAD);
    compose(0x00003800, 3, HOUSE_STORE);

    /* Page 3, valid and protected. */
    compose(0x00003C00, 4, HOUSE_LOAD);
    compose(0x00003C00, 4, HOUSE_STORE);
    compose(0x00003C00, 3, HOUSE_LOAD);
    compose(0x00003C00, 3, HOUSE_STORE);

    /* 72 is bits 3 and 6; 2 is bit 1; 0 has no bit. */
    level(72);
    level(2);
    level(0);
    return 0;
}
