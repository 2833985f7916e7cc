/* The charge totals of battery packs, kept in flash by a controller: pack number -> ticks of its charge sensor, a u32.
 *
 *     (cd crates/capi && rt lib)
 *     mkdir -p target
 *     cc -std=c99 -Wall -Wextra -Werror -Iinclude examples/charge.c crates/capi/out/libcapi.a -o target/charge
 *     target/charge
 *
 * The flash is an array here. Every answer is tested: one that is not expected ends the program with status 1.
 */
#include <inttypes.h>
#include <stdio.h>
#include <stdlib.h>
#include <string.h>

#include "werandumb.h"

enum { PAGE = 64, PAGES = 4, ENTRIES = 8 };

static uint8_t image[PAGES * PAGE];
static uint32_t cache[WERANDUMB_CACHE]; /* all 0 is empty */
static uint32_t out[WERANDUMB_OUT];

/* What is lent to the calls: pointer and length, the page size, the entries in use. */
#define IMAGE image, sizeof image, PAGE
#define CACHE cache, WERANDUMB_CACHE, ENTRIES
#define OUT out, WERANDUMB_OUT

/* Ends the program unless what is expected holds. */
static void expect(int holds, const char *otherwise)
{
    if (!holds) {
        fprintf(stderr, "charge: %s\n", otherwise);
        exit(1);
    }
}

/* Stores a pack's total. Hands back how many pages were erased to make room. */
static uint32_t store_total(uint32_t pack, uint32_t total)
{
    const uint8_t value[4] = {(uint8_t)total, (uint8_t)(total >> 8), (uint8_t)(total >> 16), (uint8_t)(total >> 24)};
    expect(map_store_item(IMAGE, CACHE, pack, value, sizeof value, OUT) == WERANDUMB_DONE, "a total is not stored");
    return out[WERANDUMB_OUT_ERASED];
}

/* Whether a pack has a total. If so, out says where it stands. */
static int has_total(uint32_t pack)
{
    expect(map_fetch_item(IMAGE, CACHE, pack, OUT) == WERANDUMB_DONE, "a fetch fails");
    return out[WERANDUMB_OUT_KIND] == 1;
}

/* The total that out gives the place of: a part of the image. */
static uint32_t total_found(void)
{
    const uint8_t *value = image + out[WERANDUMB_OUT_PLACE];
    expect(out[WERANDUMB_OUT_LENGTH] == 4, "a total does not have 4 bytes");
    return value[0] | (uint32_t)value[1] << 8 | (uint32_t)value[2] << 16 | (uint32_t)value[3] << 24;
}

/* Prints all items, older totals of a pack too, and counts them. */
static unsigned print_items(void)
{
    uint32_t cursor[WERANDUMB_CURSOR];
    unsigned items = 0;
    expect(map_walk_start(IMAGE, CACHE, cursor, WERANDUMB_CURSOR, OUT) == WERANDUMB_DONE, "a walk does not start");
    for (;;) {
        expect(map_walk_step(IMAGE, cursor, WERANDUMB_CURSOR, OUT) == WERANDUMB_DONE, "a walk's step fails");
        if (out[WERANDUMB_OUT_KIND] == 0)
            return items;
        printf("  pack %" PRIu32 ": %" PRIu32 "\n", out[WERANDUMB_OUT_KEY], total_found());
        items++;
    }
}

int main(void)
{
    uint32_t total, erased = 0;

    memset(image, 0xFF, sizeof image); /* blank flash */
    expect(!has_total(7), "blank flash has a total");
    for (total = 100; total <= 2000; total += 100)
        erased += store_total(7, total);
    erased += store_total(8, 350);

    expect(has_total(7) && total_found() == 2000, "pack 7 does not have its newest total");
    printf("pack 7: %" PRIu32 " ticks; %" PRIu32 " pages were erased for 21 totals\n", total_found(), erased);
    puts("all items, the last of a pack counts:");
    expect(print_items() >= 2, "a walk misses a pack");

    expect(map_remove_item(IMAGE, CACHE, 8, OUT) == WERANDUMB_DONE, "a removal fails");
    expect(!has_total(8) && has_total(7), "pack 8 is not removed, or pack 7 is");
    puts("pack 8 is removed");
    return 0;
}
