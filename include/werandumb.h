/* Werandumb: a key-value map on flash, for C.
 *
 * Link libcapi.a: for x86-64 crates/capi/out/libcapi.a, made by `rt lib` in crates/capi; for another machine
 * target/native/libcapi.a, made by `tools/native MACHINE` where the Rattle kit is. It calls memcpy, memmove and memset and
 * nothing else, takes no memory and keeps nothing between calls.
 *
 * A slice is a pointer and a length: bytes in image and value, words of 32 bits in cache, cursor and out, a number of 64
 * bits in power. No pointer is null, not even with length 0, and no two slices of a call overlap. Every call then ends and
 * touches nothing else, whatever numbers and bytes it is given.
 *
 *   image    the flash image, image_len bytes in pages of `page` bytes; blank bytes are 0xFF
 *   cache    64 words, the 32 keys and then the 32 places; all 0 is empty. `size` of the 32 entries are in use, 0 to 32.
 *            Start with an empty one, and lend it, with the same size, to every call on the image that takes one
 *   cursor   3 words, where a walk stands: first page, page, place
 *   power    1 number, how many units there are: a programmed byte takes one, an erased page one. At 0 the image changes no
 *            more; UINT64_MAX never runs out
 *   out      5 words, written by every answer but 255; what does not apply is 0
 *
 * Each function returns an answer of enum werandumb_answer.
 */
#ifndef WERANDUMB_H
#define WERANDUMB_H

#include <stddef.h>
#include <stdint.h>

#ifdef __cplusplus
extern "C" {
#endif

/* The lengths of a cache, a cursor, a power and an out, and the most entries that a cache has in use. */
enum werandumb_length {
    WERANDUMB_CACHE = 64,
    WERANDUMB_CURSOR = 3,
    WERANDUMB_POWER = 1,
    WERANDUMB_OUT = 5,
    WERANDUMB_ENTRIES = 32
};

/* The words of out. */
enum werandumb_out {
    WERANDUMB_OUT_ERASED = 0, /* how many pages the call erased */
    WERANDUMB_OUT_KIND = 1,   /* 1: a value or an item was found; 0: none, or the call looks for none */
    WERANDUMB_OUT_PLACE = 2,  /* where the value starts in the image */
    WERANDUMB_OUT_LENGTH = 3, /* its bytes */
    WERANDUMB_OUT_KEY = 4     /* the key of a walk's item */
};

/* The answers. 1 to 6 are refusals: only out is written. Where several are due, pages of 0 bytes come first (3), then the
 * lowest number. */
enum werandumb_answer {
    WERANDUMB_DONE = 0,                           /* done; out has the kind, so whether something was found */
    WERANDUMB_END_RANGE_NOT_AT_PAGE_BOUNDARY = 1, /* the image is no whole number of pages */
    WERANDUMB_RANGE_TOO_SMALL = 2,                /* the image has fewer than two pages */
    WERANDUMB_PAGES_TOO_SMALL = 3,                /* a page has fewer than 20 bytes */
    WERANDUMB_GEOMETRY = 4,                       /* a page is no multiple of 4 bytes or over 32,768, or over 256 pages */
    WERANDUMB_CACHE_SIZE = 5,                     /* size is over 32 */
    WERANDUMB_ITEM_TOO_BIG = 6,                   /* the value has over page - 20 bytes */
    WERANDUMB_FULL_STORAGE = 7,                   /* no room for the value; the values that are stored stay */
    WERANDUMB_CORRUPTED = 8,                      /* the image is damaged beyond one repair; the cache is empty */
    WERANDUMB_WRONG_LENGTH = 255                  /* a cache, cursor, power or out of another length; nothing is written */
};

/* The newest value of a key: kind 1 with its place and length, or kind 0. A damaged image is repaired once, so the image
 * can change. Answers 0 to 5, 8, 255. */
uint32_t map_fetch_item(uint8_t *image, size_t image_len, size_t page, uint32_t *cache, size_t cache_len, size_t size,
                        uint32_t key, uint32_t *out, size_t out_len);

/* The same without a cache and without a repair: a damaged image answers 8 at once. Answers 0 to 4, 8, 255. */
uint32_t map_fetch_plain(const uint8_t *image, size_t image_len, size_t page, uint32_t key, uint32_t *out, size_t out_len);

/* Stores a value of a key, in place of the one before. A damaged image is repaired once. Answers 0 to 8, 255. */
uint32_t map_store_item(uint8_t *image, size_t image_len, size_t page, uint32_t *cache, size_t cache_len, size_t size,
                        uint32_t key, const uint8_t *value, size_t value_len, uint32_t *out, size_t out_len);

/* Removes a key with all its values; a key that is not held is done too. A damaged image is repaired once.
 * Answers 0 to 5, 8, 255. */
uint32_t map_remove_item(uint8_t *image, size_t image_len, size_t page, uint32_t *cache, size_t cache_len, size_t size,
                         uint32_t key, uint32_t *out, size_t out_len);

/* Removes all keys: their items are marked, no page is erased for it. A damaged image is repaired once.
 * Answers 0 to 5, 8, 255. */
uint32_t map_remove_all_items(uint8_t *image, size_t image_len, size_t page, uint32_t *cache, size_t cache_len, size_t size,
                              uint32_t *out, size_t out_len);

/* Erases all pages, whatever they hold, and empties the cache. Answers 0 to 5, 255. */
uint32_t map_erase_all(uint8_t *image, size_t image_len, size_t page, uint32_t *cache, size_t cache_len, size_t size,
                       uint32_t *out, size_t out_len);

/* The four calls above on a battery that can run out, so that a test can pull it after any byte. power is written back with
 * what is left. A refusal takes none. With enough units, exactly enough too, all is as the call without _cut leaves and
 * answers it. With fewer the call is cut: 0 are left, and the image is what the first units of its steps leave, in their
 * order; an erase is done or not begun. Then answer, out and cache mean nothing: go on with an empty cache. */
uint32_t map_store_item_cut(uint8_t *image, size_t image_len, size_t page, uint32_t *cache, size_t cache_len, size_t size,
                            uint32_t key, const uint8_t *value, size_t value_len, uint64_t *power, size_t power_len,
                            uint32_t *out, size_t out_len);
uint32_t map_remove_item_cut(uint8_t *image, size_t image_len, size_t page, uint32_t *cache, size_t cache_len, size_t size,
                             uint32_t key, uint64_t *power, size_t power_len, uint32_t *out, size_t out_len);
uint32_t map_remove_all_items_cut(uint8_t *image, size_t image_len, size_t page, uint32_t *cache, size_t cache_len,
                                  size_t size, uint64_t *power, size_t power_len, uint32_t *out, size_t out_len);
uint32_t map_erase_all_cut(uint8_t *image, size_t image_len, size_t page, uint32_t *cache, size_t cache_len, size_t size,
                           uint64_t *power, size_t power_len, uint32_t *out, size_t out_len);

/* Starts a walk over all items. Answer 0 writes the cursor, any other leaves it. A damaged image is repaired once.
 * Answers 0 to 5, 8, 255. */
uint32_t map_walk_start(uint8_t *image, size_t image_len, size_t page, uint32_t *cache, size_t cache_len, size_t size,
                        uint32_t *cursor, size_t cursor_len, uint32_t *out, size_t out_len);

/* The walk's next item: kind 1 with its key, place and length, and the cursor moves on; kind 0 at the end, and the cursor
 * stays. A key's older values come before its newest. Any cursor may be lent. Answers 0 to 4, 255. */
uint32_t map_walk_step(const uint8_t *image, size_t image_len, size_t page, uint32_t *cursor, size_t cursor_len,
                       uint32_t *out, size_t out_len);

#ifdef __cplusplus
}
#endif

#endif
