/* The constants of the header: each object is made in a heap of as many bytes as they say, and the figures of a heap are printed. */
#include "world.h"

#include <stdio.h>
#include <stdlib.h>
#include <string.h>

static uint8_t bytes[SWP_MEMORY];

static bool nv_read(void *context, uint32_t at, uint8_t *to, size_t length) {
    (void)context;
    memcpy(to, bytes + at, length);
    return true;
}

static bool nv_write(void *context, uint32_t at, const uint8_t *from, size_t length) {
    (void)context;
    memcpy(bytes + at, from, length);
    return true;
}

static void told(void *context, const swp_told *what) {
    (void)context;
    (void)what;
}

static const swp_board board = {NULL, nv_read, nv_write, told};

static swp_code make(int what, void *heap, size_t size) {
    swp_host *host;
    swp_controller *controller;
    swp_link *link;
    swp_decoder *decoder;
    switch (what) {
    case -1: return swp_link_make(heap, size, SWP_UICC, &link);
    case -2: return swp_decoder_make(heap, size, &decoder);
    case -3: return swp_host_boot(heap, size, 2, &board, &host);
    default: return swp_controller_boot(heap, size, (uint8_t)(((1 << what) - 1) << 1), &board, &controller);
    }
}

/* An object fits a heap of so many bytes, and not one of a byte less than what it uses; it leaves at most so many unused. */
static void fits(const char *name, int what, size_t size, size_t unused) {
    memset(bytes, 0xFF, sizeof bytes);
    void *heap = malloc(size);
    must(heap != NULL && make(what, heap, size) == SWP_OK, name);
    size_t used = swp_heap_used(heap);
    must(used <= size && size - used <= unused, "the constant is the size that is used");
    must(make(what, heap, used) == SWP_OK && make(what, heap, used - 1) == SWP_NO_HEAP, "a heap that is too small is refused");
    must(make(what, heap, sizeof(size_t)) == SWP_NO_HEAP && make(what, heap, 0) == SWP_NO_HEAP, "a heap without room for its front is refused");
    must(make(what, (char *)heap + 1, size - 1) == SWP_BAD_POINTER, "a heap that isn't aligned is refused");
    printf("%s: %lu bytes of heap\n", name, (unsigned long)used);
    free(heap);
}

int main(void) {
    size_t unused = sizeof(void *) == 8 ? 7 : 4096;
    fits("host", -3, SWP_HOST_HEAP, unused);
    fits("bare link end", -1, SWP_LINK_HEAP, unused);
    fits("decoder", -2, SWP_DECODER_HEAP, unused);
    for (int hosts = 0; hosts <= 7; hosts++) {
        char name[32];
        snprintf(name, sizeof name, "controller of %d", hosts);
        fits(name, hosts, SWP_CONTROLLER_HEAP(hosts), unused);
    }
    return 0;
}
