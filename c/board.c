/* The board's request loop in small: each request is served to the stored run, and a missed page is copied from the serial
   memory into its slot's frame. Plays trace A and damaged calls; exits with 1 where an answer is not the documented one. */
#include <stdio.h>
#include <string.h>

#include "timonedra.h"

#define PAGES 6
#define SLOTS 3
#define PAGE_BYTES 64

/* Trace A's start: pages 1, 3, 0 in the slots; priorities 10, 40, 20, 30, 50, 5. Two bytes behind it show that none is touched. */
static uint8_t image[62] = {
    6, 0, 0, 0, 3, 0, 0, 0, 0, 0, 0, 0,
    0, 0, 0, 0, 0, 0, 0, 0, 0, 0, 0, 0,
    36, 0, 0, 0, 42, 0, 0, 0, 48, 0, 0, 0,
    131, 129, 0, 130, 0, 0, 1, 0, 3, 0, 0, 0,
    10, 0, 40, 0, 20, 0, 30, 0, 50, 0, 5, 0,
    170, 85
};
static const size_t length = 60;

static uint8_t memory[PAGES][PAGE_BYTES];
static uint8_t frames[SLOTS][PAGE_BYTES];

static int wrong;

static void expect(const char *what, uint32_t got, uint32_t due) {
    if (got != due) {
        printf("%s: %u, not %u\n", what, (unsigned)got, (unsigned)due);
        wrong = 1;
    }
}

/* One request as firmware makes it. */
static uint32_t request(uint32_t page) {
    uint32_t answer = timonedra_serve(image, length, page);
    if (TIMONEDRA_REFUSAL(answer) != TIMONEDRA_SERVED) {
        printf("page %u: refused %u\n", (unsigned)page, (unsigned)TIMONEDRA_REFUSAL(answer));
        return answer;
    }
    uint32_t slot = TIMONEDRA_SLOT(answer);
    if (TIMONEDRA_MISS(answer)) {
        memcpy(frames[slot], memory[page], PAGE_BYTES);
        printf("page %u: loaded into slot %u, page %u gone\n", (unsigned)page, (unsigned)slot, (unsigned)TIMONEDRA_VICTIM(answer));
    } else {
        printf("page %u: in slot %u\n", (unsigned)page, (unsigned)slot);
    }
    expect("the frame's first byte", frames[slot][0], memory[page][0]);
    return answer;
}

/* A call that must be refused, and must not change a byte. */
static void refused(const char *what, size_t bytes, uint32_t page, uint32_t number) {
    uint8_t before[sizeof image];
    memcpy(before, image, sizeof image);
    expect(what, timonedra_serve(image, bytes, page), number << 24);
    expect("bytes changed beside a refusal", memcmp(before, image, sizeof image) != 0, 0);
}

int main(void) {
    static const uint32_t pages[6] = {4, 0, 3, 4, 4, 5};
    static const uint32_t due[6] = {67584, 66563, 65537, 2048, 2048, 66560};
    for (int page = 0; page < PAGES; page++) {
        memset(memory[page], 100 + page, PAGE_BYTES);
    }
    memcpy(frames[0], memory[1], PAGE_BYTES);
    memcpy(frames[1], memory[3], PAGE_BYTES);
    memcpy(frames[2], memory[0], PAGE_BYTES);
    for (int i = 0; i < 6; i++) {
        expect("answer", request(pages[i]), due[i]);
    }
    expect("answer to a page that is not there", request(6), 134217728);
    refused("page 2^32 - 1", length, 4294967295u, TIMONEDRA_NO_SUCH_PAGE);
    refused("an image one byte short", length - 1, 4, TIMONEDRA_LENGTH);
    refused("an image one byte long", length + 1, 4, TIMONEDRA_LENGTH);
    refused("no image", 0, 4, TIMONEDRA_LENGTH);
    image[36] ^= 128;
    refused("a mark without its slot", length, 4, TIMONEDRA_UNSOUND);
    image[36] ^= 128;
    expect("a byte behind the image", image[60], 170);
    expect("a byte behind the image", image[61], 85);
    puts(wrong ? "wrong" : "all as documented");
    return wrong;
}
