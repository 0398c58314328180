/* How deep calls go into the stack: stands before each call of the library while a schedule is played (the linker's --wrap), paints the stack
 * below it, and looks how far down the paint was touched. Prints the deepest by kind of object. Callbacks here need next to nothing. */
#include "world.h"

#include <stdio.h>
#include <string.h>

enum { DEEP = 49152, CLEAN = 0xA5 };

static size_t deepest[4];
static uint8_t *volatile room_below;

static __attribute__((noinline)) void paint(void) {
    uint8_t room[DEEP];
    room_below = room;
    memset(room_below, CLEAN, DEEP);
}

/* The same frame again: what was painted and is clean yet stands at its low end. */
static __attribute__((noinline)) void look(int kind) {
    size_t clean = 0;
    while (clean < DEEP && room_below[clean] == CLEAN) {
        clean++;
    }
    if (DEEP - clean > deepest[kind]) {
        deepest[kind] = DEEP - clean;
    }
}

#define WRAP(kind, name, parameters, arguments)         \
    swp_code __real_##name parameters;                  \
    swp_code __wrap_##name parameters;                  \
    swp_code __wrap_##name parameters {                 \
        paint();                                        \
        swp_code code = __real_##name arguments;        \
        look(kind);                                     \
        return code;                                    \
    }

WRAP(3, swp_host_boot, (void *h, size_t n, uint8_t k, const swp_board *b, swp_host **m), (h, n, k, b, m))
WRAP(0, swp_host_take, (swp_host *h, const uint8_t *f, size_t n), (h, f, n))
WRAP(0, swp_host_tick, (swp_host *h), (h))
WRAP(0, swp_host_activate, (swp_host *h, uint16_t s), (h, s))
WRAP(0, swp_host_reset, (swp_host *h, uint8_t w), (h, w))
WRAP(0, swp_host_next, (swp_host *h, uint8_t *f, size_t *n), (h, f, n))
WRAP(0, swp_host_send, (swp_host *h, uint8_t p, const uint8_t *m, size_t n), (h, p, m, n))
WRAP(0, swp_host_init, (swp_host *h, const uint8_t *i, const uint8_t *p, size_t n), (h, i, p, n))
WRAP(3, swp_controller_boot, (void *h, size_t n, uint8_t k, const swp_board *b, swp_controller **m), (h, n, k, b, m))
WRAP(1, swp_controller_take, (swp_controller *c, uint8_t h, const uint8_t *f, size_t n), (c, h, f, n))
WRAP(1, swp_controller_tick, (swp_controller *c), (c))
WRAP(1, swp_controller_activate, (swp_controller *c, uint8_t h, uint8_t p), (c, h, p))
WRAP(1, swp_controller_reset, (swp_controller *c, uint8_t h, uint8_t w), (c, h, w))
WRAP(1, swp_controller_next, (swp_controller *c, uint8_t h, uint8_t *f, size_t *n), (c, h, f, n))
WRAP(2, swp_link_make, (void *h, size_t n, uint8_t r, swp_link **m), (h, n, r, m))
WRAP(2, swp_link_take, (swp_link *l, const uint8_t *f, size_t n, swp_link_report *r), (l, f, n, r))
WRAP(2, swp_link_tick, (swp_link *l, swp_link_report *r), (l, r))
WRAP(2, swp_link_next, (swp_link *l, uint8_t *f, size_t *n), (l, f, n))
WRAP(2, swp_link_send, (swp_link *l, uint8_t p, const uint8_t *m, size_t n), (l, p, m, n))
WRAP(2, swp_link_message, (swp_link *l, uint8_t *p, uint8_t *m, size_t r, size_t *n), (l, p, m, r, n))

static __attribute__((destructor)) void print(void) {
    static const char *const names[] = {"host", "controller", "bare link end", "boot of a node"};
    for (int kind = 0; kind < 4; kind++) {
        if (deepest[kind] > 0) {
            fprintf(stderr, "%s: %lu bytes of stack\n", names[kind], (unsigned long)deepest[kind]);
        }
    }
}
