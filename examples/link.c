/* A first program with Stringhut. Build it against the header and the static library:
 *
 *     cc -Wall -Wextra -Werror -Iinclude examples/link.c target/staticlib/libboard.a -o link
 *
 * It prints what it does and returns 0 if everything went as the comments say. */
#include <inttypes.h>
#include <stdio.h>
#include <string.h>

#include "stringhut.h"

#define BLOCKS 4
#define LINES (BLOCKS * HUT_BLOCK_BYTES / HUT_LINE_BYTES)

/* Says what failed; main then stops. */
static int failed(const char *what, uint64_t answer) {
    fprintf(stderr, "%s: answer %" PRIu64 "\n", what, answer);
    return 1;
}

int main(void) {
    /* The image is a plain buffer; on a board it would be the persistent memory itself. All zero is a blank index. */
    static uint8_t image[BLOCKS * HUT_BLOCK_BYTES];
    uint64_t list[HUT_LIST_WORDS];

    /* put changes nothing: it writes the steps that add the entry. */
    hut_made made = hut_put(image, sizeof image, list, HUT_LIST_WORDS, 10, 100);
    if (made.answer != HUT_OK) return failed("put 10", made.answer);
    printf("put 10: %" PRIu64 " steps, %" PRIu64 " line writes, %" PRIu64 " word writes\n",
           made.steps, made.line_writes, made.word_writes);

    /* run takes them, as the processor would. Now the key is there. */
    uint64_t answer = hut_run(image, sizeof image, list, HUT_LIST_WORDS, made.steps);
    if (answer != HUT_OK) return failed("run", answer);
    hut_found found = hut_find(image, sizeof image, 10);
    if (found.answer != HUT_OK || found.value != 100) return failed("find 10", found.answer);
    printf("find 10: %" PRIu64 "\n", found.value);

    /* Refusals are numbers: a key that is there is not put again. */
    made = hut_put(image, sizeof image, list, HUT_LIST_WORDS, 10, 7);
    if (made.answer != HUT_KEY_PRESENT) return failed("put 10 again", made.answer);

    /* Power is lost in the middle of another put. Its five steps are: store the key, store the value, store the header,
     * write back line 0, fence. Say three were taken and only the first two stores reached the memory. */
    made = hut_put(image, sizeof image, list, HUT_LIST_WORDS, 20, 200);
    if (made.answer != HUT_OK) return failed("put 20", made.answer);
    uint64_t arrivals[LINES];
    memset(arrivals, 0, sizeof arrivals);
    arrivals[0] = 2;
    answer = hut_cut(image, sizeof image, list, HUT_LIST_WORDS, 3, arrivals, LINES);
    if (answer != HUT_OK) return failed("cut", answer);

    /* The image is sound, and the map is the one before the put: never something in between. */
    uint64_t smallest[BLOCKS], blocks[BLOCKS];
    hut_recovered recovered = hut_recovery(image, sizeof image, smallest, BLOCKS, blocks, BLOCKS);
    if (recovered.answer != HUT_OK || recovered.entries != 1) return failed("recovery", recovered.answer);
    found = hut_find(image, sizeof image, 20);
    if (found.answer != HUT_KEY_ABSENT) return failed("find 20 after the cut", found.answer);
    printf("after the cut: %" PRIu64 " leaf, %" PRIu64 " entry\n", recovered.leaves, recovered.entries);

    /* So the put is made again, on the image as it is now, and this time taken whole. */
    made = hut_put(image, sizeof image, list, HUT_LIST_WORDS, 20, 200);
    if (made.answer != HUT_OK) return failed("put 20 again", made.answer);
    answer = hut_run(image, sizeof image, list, HUT_LIST_WORDS, made.steps);
    if (answer != HUT_OK) return failed("run again", answer);

    /* Listing gives the entries in rising order, as many as the buffers hold. */
    uint64_t keys[8], values[8];
    hut_listed listed = hut_listing(image, sizeof image, 0, keys, 8, values, 8);
    if (listed.answer != HUT_OK || listed.count != 2) return failed("listing", listed.answer);
    for (uint64_t at = 0; at < listed.count; at++) {
        printf("%" PRIu64 " %" PRIu64 "\n", keys[at], values[at]);
    }
    return keys[0] == 10 && values[0] == 100 && keys[1] == 20 && values[1] == 200 ? 0 : failed("entries", 0);
}
