/* What only C can hand over: null pointers with length 0, an image at any byte address, lengths that are far too long.
 * Returns 0 if every answer is the one document 01 gives, else the number of the line that was not. */
#include <string.h>

#include "stringhut.h"

#define EXPECT(truth) do { if (!(truth)) return __LINE__ & 0xFF ? __LINE__ & 0xFF : 1; } while (0)

static int empty_buffers(uint8_t *image) {
    hut_listed listed = hut_listing(image, 256, 0, NULL, 0, NULL, 0);
    hut_recovered recovered = hut_recovery(image, 256, NULL, 0, NULL, 0);
    EXPECT(hut_find(NULL, 0, 1).answer == HUT_IMAGE_LENGTH);
    EXPECT(hut_put(image, 256, NULL, 0, 1, 1).answer == HUT_LIST_ROOM);
    EXPECT(hut_set(image, 256, NULL, 0, 1, 1).answer == HUT_LIST_ROOM);
    EXPECT(hut_del(image, 256, NULL, 0, 1).answer == HUT_LIST_ROOM);
    EXPECT(listed.answer == HUT_OK && listed.count == 0);
    EXPECT(recovered.answer == HUT_BUFFER_ROOM && recovered.leaves == 0 && recovered.entries == 0);
    EXPECT(hut_run(image, 256, NULL, 0, 0) == HUT_OK);
    EXPECT(hut_run(image, 256, NULL, 0, 1) == HUT_BAD_STEPS);
    EXPECT(hut_cut(image, 256, NULL, 0, 0, NULL, 0) == HUT_BAD_ARRIVALS);
    EXPECT(hut_run(NULL, 0, NULL, 0, 0) == HUT_IMAGE_LENGTH);
    return 0;
}

/* An image length above 65,536 is refused before anything is read: only one byte is there. */
static int long_lengths(void) {
    uint8_t one = 0;
    uint64_t list[HUT_LIST_WORDS];
    EXPECT(hut_find(&one, 65537, 1).answer == HUT_IMAGE_LENGTH);
    EXPECT(hut_find(&one, 65792, 1).answer == HUT_IMAGE_LENGTH);
    EXPECT(hut_put(&one, (size_t)1 << 40, list, HUT_LIST_WORDS, 1, 1).answer == HUT_IMAGE_LENGTH);
    EXPECT(hut_run(&one, (size_t)1 << 40, list, HUT_LIST_WORDS, 0) == HUT_IMAGE_LENGTH);
    return 0;
}

static int any_address(uint8_t *bytes) {
    uint64_t list[HUT_LIST_WORDS];
    for (size_t shift = 0; shift < 16; shift++) {
        uint8_t *image = bytes + shift;
        memset(image, 0, 512);
        for (uint64_t key = 1; key <= 15; key++) {
            hut_made made = hut_put(image, 512, list, HUT_LIST_WORDS, key, 10 * key);
            EXPECT(made.answer == HUT_OK);
            EXPECT(hut_run(image, 512, list, HUT_LIST_WORDS, made.steps) == HUT_OK);
        }
        EXPECT(hut_find(image, 512, 15).value == 150);
    }
    return 0;
}

int main(void) {
    static uint8_t image[528];
    int line = empty_buffers(image);
    if (line == 0) line = long_lengths();
    if (line == 0) line = any_address(image);
    return line;
}
