/* Reads a line record from standard input byte by byte, and writes what `swp decode` writes of it. */
#include "../swp_stack.h"

#include <stdio.h>

static uint64_t heap[SWP_DECODER_HEAP / 8 + 1];

int main(void) {
    swp_decoder *decoder;
    char lines[SWP_LINES];
    size_t length;
    if (swp_decoder_make(heap, sizeof heap, &decoder) != SWP_OK) {
        return 1;
    }
    for (int byte = getchar(); byte != EOF; byte = getchar()) {
        if (swp_decoder_step(decoder, (uint8_t)byte, lines, &length) != SWP_OK) {
            return 1;
        }
        fwrite(lines, 1, length, stdout);
    }
    if (swp_decoder_finish(decoder, lines, &length) != SWP_OK || swp_heap_used(heap) != SWP_DECODER_HEAP) {
        return 1;
    }
    fwrite(lines, 1, length, stdout);
    return 0;
}
