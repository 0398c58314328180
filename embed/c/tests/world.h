/* A world of a controller and hosts for the tests: nodes over memories that can be told to fail, and wires between them. */
#ifndef WORLD_H
#define WORLD_H

#include "../swp_stack.h"

#define MOST_ON_WIRE 64
#define ROOM 8192

typedef struct {
    uint8_t bytes[SWP_MEMORY];
    unsigned failing; /* the write that fails, 1 being the next; 0: none */
    uint8_t fill[64];
    size_t fill_length;
    uint8_t number;         /* of its node */
    struct world *world;
} memory;

typedef struct {
    uint8_t bytes[30];
    size_t length;
    unsigned age, number; /* number: of an RSET, from 1 on a link */
} frame;

typedef struct {
    frame frames[MOST_ON_WIRE];
    size_t count;
    unsigned emitted, took; /* the greatest numbers of RSETs that the end at which it ends put on the link and took */
} wire;

typedef struct {
    uint8_t host;
    wire to_clf, to_host;
    unsigned resets;
    swp_host *node;
    void *heap;
    memory memory;
} site;

typedef struct world {
    site sites[7];
    size_t count;
    swp_controller *clf;
    void *heap;
    memory memory;
    size_t used_at_boot[8]; /* of each node's heap */
} world;

/* Says an entry of a transcript on standard output. */
void say(const char *format, ...);
void say_bytes(const uint8_t *bytes, size_t length);

void world_make(world *w, uint8_t hosts);
site *world_site(world *w, uint8_t host);
bool world_runs(world *w, uint8_t node);
void world_boot(world *w, uint8_t node);
void world_cut(world *w, uint8_t node);
void world_activate(world *w, uint8_t host, uint16_t sync, uint8_t power);
void world_take(world *w, uint8_t host, bool at_host);
void world_lose(world *w, uint8_t host, bool at_host, const char *cause);
void world_tick(world *w);
bool world_rests(world *w);
/* why the line is refused, or null */
const char *world_reset(world *w, uint8_t host, bool at_host, uint8_t window);
const char *world_send(world *w, uint8_t host, uint8_t pipe, const uint8_t *message, size_t length);
const char *world_init(world *w, uint8_t host, const uint8_t *identity, const uint8_t *pipes, size_t count);
wire *world_wire(world *w, uint8_t host, bool at_host);
/* Ends the program with a text and status 1 where a thing isn't so. */
void must(bool so, const char *what);
void world_end(world *w);

#endif
