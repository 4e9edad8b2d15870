/* Stringhut: a crash-safe page index over a byte buffer. The C interface of the proved library.
 *
 * An IMAGE is a byte buffer of N blocks of 256 bytes, N from 1 to 256. All zero, it is blank: sound, with an empty map of
 * 64-bit keys to 64-bit values. put, set and del do not change it: they write a LIST of steps (stores, write-backs,
 * fences) that does. hut_run takes the steps as the processor sees them; hut_cut takes them as the memory holds them when
 * power is lost. On your own hardware you take them yourself: a store is a plain 8-byte store into the image, a write-back
 * is your cache line write-back (clwb or the like) of 64 bytes, a fence your store fence. Cut anywhere, the image is sound
 * and its map is the one before the call or the one after it.
 *
 * What the caller owes:
 *   - every pointer is valid for the length that stands behind it; lengths are in elements, not in bytes;
 *   - a null pointer with length 0 is an empty buffer;
 *   - an image may lie at any byte address; buffers of uint64_t are aligned as the compiler aligns a uint64_t;
 *   - the buffers of one call do not overlap;
 *   - nobody else writes into them while the call runs;
 *   - HUT_STACK_BYTES of stack are free.
 * What the library owes: it keeps no pointer and no state, allocates nothing, and calls nothing but memset, which C compilers
 * ask of every board. An image length above 65,536 is refused before anything is read. Any number of threads may call at
 * once on buffers of their own.
 *
 * Every call answers 0 (HUT_OK) or one refusal number. A refusal tells 0 for every count and value and changes no buffer.
 * Where several refusals apply, the answer is the first in the order 1, 2, 8, 3, 4, 5, 6; for run and cut 1, 7, 10.
 */
#ifndef STRINGHUT_H
#define STRINGHUT_H

#include <stddef.h>
#include <stdint.h>

#ifdef __cplusplus
extern "C" {
#endif

/* No call takes more stack than this, in bytes: measured on x86-64, and rounded up. */
#define HUT_STACK_BYTES 4096

#define HUT_BLOCK_BYTES 256  /* an image's length is a multiple of this, up to HUT_MOST_BLOCKS of them */
#define HUT_MOST_BLOCKS 256
#define HUT_LINE_BYTES 64    /* what one write-back writes back */
#define HUT_MOST_STEPS 56    /* no list is longer */
#define HUT_LIST_WORDS 112   /* the room that put, set and del ask for: two words for each step */

/* The two words of a step. A store: its byte place in the image (a multiple of 8) and the value. A write-back:
 * HUT_WRITE_BACK plus the number of a line of the image, and 0. A fence: HUT_FENCE and 0. */
#define HUT_WRITE_BACK (UINT64_C(1) << 32)
#define HUT_FENCE (UINT64_C(1) << 33)

/* The answers. */
enum hut_answer {
    HUT_OK = 0,
    HUT_IMAGE_LENGTH = 1,   /* image length 0, over 65,536, or no multiple of 256 */
    HUT_LIST_ROOM = 2,      /* put, set, del: list room under 112 words */
    HUT_NOT_SOUND = 3,      /* the image is not sound: damaged, or never an image */
    HUT_KEY_PRESENT = 4,    /* put: key present */
    HUT_KEY_ABSENT = 5,     /* find, set, del: key absent */
    HUT_NO_BLOCK_LEFT = 6,  /* put: the key's leaf is full and all N blocks are in use */
    HUT_BAD_STEPS = 7,      /* run, cut: n over 56, list shorter than 2n words, or one of the first n steps malformed */
    HUT_BUFFER_ROOM = 8,    /* recovery: either buffer under N entries */
    HUT_LINE_MALFORMED = 9, /* the bench program only: no call of the library answers it */
    HUT_BAD_ARRIVALS = 10   /* cut: arrivals not one per line, or one that the memory could not have */
};

typedef struct { uint64_t answer, value; } hut_found;
typedef struct { uint64_t answer, steps, line_writes, word_writes; } hut_made;
typedef struct { uint64_t answer, count; } hut_listed;
typedef struct { uint64_t answer, leaves, entries; } hut_recovered;

/* find: the value of the key. Answers 0, 1, 3, 5. */
hut_found hut_find(const uint8_t *image, size_t image_bytes, uint64_t key);

/* put: writes the list that adds the key, from the list's start, and tells its steps (at most 56), its line writes
 * (write-back steps, at most 8) and its word writes (store steps). Words past the list stay. Answers 0, 1, 2, 3, 4, 6. */
hut_made hut_put(const uint8_t *image, size_t image_bytes, uint64_t *list, size_t list_words, uint64_t key,
                 uint64_t value);

/* set: the list, always of 3 steps, that gives a present key another value. Answers 0, 1, 2, 3, 5. */
hut_made hut_set(const uint8_t *image, size_t image_bytes, uint64_t *list, size_t list_words, uint64_t key,
                 uint64_t value);

/* del: the list, always of 3 steps, that takes a present key away. Answers 0, 1, 2, 3, 5. */
hut_made hut_del(const uint8_t *image, size_t image_bytes, uint64_t *list, size_t list_words, uint64_t key);

/* listing: writes the keys from `from` on and their values, rising, as many as the shorter buffer holds, and tells how
 * many. Entries past that count stay. To go on, list again from the last key plus 1. Answers 0, 1, 3. */
hut_listed hut_listing(const uint8_t *image, size_t image_bytes, uint64_t from, uint64_t *keys, size_t keys_len,
                       uint64_t *values, size_t values_len);

/* recovery: judges the image after a power loss and writes, in chain order, each leaf's smallest key (0 for an empty
 * block 0) and block number; tells the leaves and the entries. Each buffer holds at least N elements; those past the
 * leaves stay. Answers 0, 1, 3, 8. */
hut_recovered hut_recovery(const uint8_t *image, size_t image_bytes, uint64_t *smallest, size_t smallest_len,
                           uint64_t *blocks, size_t blocks_len);

/* run: takes the first n steps of a list over the image, as the processor sees it. Take a list whole (n is its steps), and
 * once: the next call must find all its stores settled. Needs no sound image. Answers 0, 1, 7. */
uint64_t hut_run(uint8_t *image, size_t image_bytes, const uint64_t *list, size_t list_words, uint64_t n);

/* cut: the same as the memory holds it, where power is lost after n steps: arrivals has, for each of the image's lines of
 * 64 bytes, how many of its stores among those steps reached the memory, at least the settled ones and at most all. For
 * testing what stands above the index. Needs no sound image. Answers 0, 1, 7, 10. */
uint64_t hut_cut(uint8_t *image, size_t image_bytes, const uint64_t *list, size_t list_words, uint64_t n,
                 const uint64_t *arrivals, size_t arrivals_len);

#ifdef __cplusplus
}
#endif

#endif
