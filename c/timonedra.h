/* Timonedra for the board's firmware: one request to a stored run, in place.
   The image is a stored run in the house layout, 36 + 3N + 2k bytes, made by the image writer. */
#ifndef TIMONEDRA_H
#define TIMONEDRA_H

#include <stddef.h>
#include <stdint.h>

/* Serves one request for a page and writes the next run over the image. Beside a refusal no byte of the image changes.
   It writes nothing outside the length bytes of the image and keeps nothing between calls. Its working room is on the stack:
   several copies of a run, each above 3 KB whatever N and k are. How much in all has not been measured: do so before use. */
uint32_t timonedra_serve(uint8_t *image, size_t length, uint32_t page);

/* The answer's parts. Beside a refusal all others are 0; on a hit the victim is 0. */
#define TIMONEDRA_VICTIM(answer) ((uint32_t)(answer) & 1023u)     /* bits 0 to 9: the page that gave up its slot */
#define TIMONEDRA_SLOT(answer) ((uint32_t)(answer) >> 10 & 63u)   /* bits 10 to 15: where the requested page is now */
#define TIMONEDRA_MISS(answer) ((uint32_t)(answer) >> 16 & 1u)    /* bit 16: 1 if the page has to be loaded into the slot */
#define TIMONEDRA_REFUSAL(answer) ((uint32_t)(answer) >> 24)      /* bits 24 to 31: 0, or one of the numbers below */

/* The refusals of this call, in the order in which they are tested (length twice: under 36 bytes first, the total later). */
enum timonedra_refusal {
    TIMONEDRA_SERVED = 0,
    TIMONEDRA_LENGTH = 13,       /* the image has the wrong length */
    TIMONEDRA_PAGES = 2,         /* the number of pages is not 1 to 1024 */
    TIMONEDRA_SLOTS = 3,         /* the number of slots is not 1 to 64, or above the number of pages */
    TIMONEDRA_OFFSET = 15,       /* an offset differs from its layout */
    TIMONEDRA_UNSOUND = 1,       /* the run in the image is not sound */
    TIMONEDRA_NO_SUCH_PAGE = 8,  /* the page is not below the number of pages */
    TIMONEDRA_ALL_SERVED = 9,    /* a million requests have been served */
    TIMONEDRA_NO_VICTIM = 17     /* never given for a sound run */
};

#endif
