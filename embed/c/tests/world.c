#include "world.h"

#include <stdarg.h>
#include <stdio.h>
#include <stdlib.h>
#include <string.h>

void must(bool so, const char *what) {
    if (!so) {
        fprintf(stderr, "not so: %s\n", what);
        exit(1);
    }
}

void say(const char *format, ...) {
#ifdef QUIET
    (void)format;
    return;
#endif
    va_list words;
    va_start(words, format);
    vprintf(format, words);
    va_end(words);
}

void say_bytes(const uint8_t *bytes, size_t length) {
#ifdef QUIET
    length = 0;
#endif
    for (size_t i = 0; i < length; i++) {
        say("%02X", bytes[i]);
    }
    say("\n");
}

static bool nv_read(void *context, uint32_t at, uint8_t *bytes, size_t length) {
    memory *m = context;
    must(at <= SWP_MEMORY && length <= SWP_MEMORY - at, "a read lies in the memory");
    memcpy(bytes, m->bytes + at, length);
    return true;
}

static bool nv_write(void *context, uint32_t at, const uint8_t *bytes, size_t length) {
    memory *m = context;
    must(at <= SWP_MEMORY && length <= SWP_MEMORY - at, "a write lies in the memory");
    if (m->failing == 1) {
        m->failing = 0;
        for (size_t i = 0; i < length; i++) {
            m->bytes[at + i] = m->fill[i % m->fill_length];
        }
        return false;
    }
    m->failing -= m->failing > 0;
    memcpy(m->bytes + at, bytes, length);
    return true;
}

/* The session at the end of a node on a link: the greatest number of an RSET that it put there or took. */
static unsigned session_at(world *w, uint8_t node, uint8_t link) {
    site *s = world_site(w, link);
    wire *to = s == NULL ? NULL : node == 0 ? &s->to_clf : &s->to_host;
    return to == NULL ? 0 : to->emitted > to->took ? to->emitted : to->took;
}

static void say_command(uint8_t node, const uint8_t *b, size_t length) {
    static const char *const words[] = {"", "create", "delete", "clear", "opened", "set", "sync"};
    must(length >= 2 && b[0] >= 1 && b[0] <= 6, "a command has its kind");
    say("command %02X %s", node, words[b[0]]);
    size_t plain = b[0] == 5 ? 4 : b[0] == 6 ? 2 : length;
    for (size_t i = 1; i < plain; i++) {
        say(" %02X", b[i]);
    }
    if (b[0] >= 5) {
        say(length == plain ? " -" : " ");
        say_bytes(b + plain, length - plain);
    } else {
        say("\n");
    }
}

static void say_of_message(const char *word, uint8_t node, world *w, const swp_told *t) {
    say("%s %02X%c %u %02X ", word, t->link, node == 0 ? 'c' : 'h', session_at(w, node, t->link), t->pipe);
    say_bytes(t->message, t->length);
}

static void say_of_session(const memory *m, const swp_told *t) {
    static const char *const causes[] = {"", "asked", "noanswer", "peer", "act", "chain"};
    char end = m->number == 0 ? 'c' : 'h';
    switch (t->kind) {
    case SWP_TOLD_UP: say("up %02X%c %u\n", t->link, end, session_at(m->world, m->number, t->link)); break;
    case SWP_TOLD_DOWN: say("down %02X%c %s\n", t->link, end, causes[t->cause]); break;
    case SWP_TOLD_ACTIVE: say("active %02X%c\n", t->link, end); break;
    case SWP_TOLD_GAVE_UP: say("gaveup %02X%c %u\n", t->link, end, t->count); break;
    case SWP_TOLD_ACKED: say("acked %02X%c %u %u\n", t->link, end, session_at(m->world, m->number, t->link), t->count); break;
    default: must(false, "what is told is of a known kind");
    }
}

static void told(void *context, const swp_told *t) {
    memory *m = context;
    char end = m->number == 0 ? 'c' : 'h';
    switch (t->kind) {
    case SWP_TOLD_SENT: say_of_message("sent", m->number, m->world, t); break;
    case SWP_TOLD_GOT: say_of_message("got", m->number, m->world, t); break;
    case SWP_TOLD_TURN:
        say("turn %02X%c %02X ", t->link, end, t->pipe);
        say_bytes(t->message, t->length);
        break;
    case SWP_TOLD_HELD: say("held %02X%c %u %u\n", t->link, end, t->count, t->spare); break;
    case SWP_TOLD_DROPPED: say("drop %02X%c %02X\n", t->link, end, t->pipe); break;
    case SWP_TOLD_COMMAND: say_command(t->link, t->message, t->length); break;
    case SWP_TOLD_ANY_OK: say("ok %02X %u\n", t->link, t->count); break;
    case SWP_TOLD_ASK:
        say("ask %02X ", t->link);
        say_bytes(t->message, t->length);
        break;
    case SWP_TOLD_INIT_SAME: say("init %02X%c same\n", t->link, end); break;
    case SWP_TOLD_INIT_MADE: say("init %02X%c made %u\n", t->link, end, t->count); break;
    case SWP_TOLD_INIT_FAILED: say("init %02X%c failed %02X\n", t->link, end, t->count); break;
    case SWP_TOLD_CUT: say("cut %02X\n", t->link); break;
    default: say_of_session(m, t);
    }
}

static void make_memory(memory *m, world *w, uint8_t number) {
    memset(m->bytes, 0xFF, sizeof m->bytes);
    m->world = w;
    m->number = number;
}

static void *heap_of(size_t size) {
    void *heap = malloc(size);
    must(heap != NULL, "there is memory for a heap");
    return heap;
}

void world_make(world *w, uint8_t hosts) {
    memset(w, 0, sizeof *w);
    make_memory(&w->memory, w, 0);
    for (uint8_t host = 1; host <= 7; host++) {
        if (hosts >> host & 1) {
            site *s = &w->sites[w->count++];
            s->host = host;
            s->heap = heap_of(SWP_HOST_HEAP);
            make_memory(&s->memory, w, host);
        }
    }
    w->heap = heap_of(SWP_CONTROLLER_HEAP(w->count));
}

/* No node took more of its heap than its boot did. */
void world_end(world *w) {
    for (size_t i = 0; i < w->count; i++) {
        site *s = &w->sites[i];
        must(s->node == NULL || swp_heap_used(s->heap) == w->used_at_boot[s->host], "a host takes no memory behind its boot");
        free(s->heap);
    }
    must(w->clf == NULL || swp_heap_used(w->heap) == w->used_at_boot[0], "a controller takes no memory behind its boot");
    free(w->heap);
}

site *world_site(world *w, uint8_t host) {
    for (size_t i = 0; i < w->count; i++) {
        if (w->sites[i].host == host) {
            return &w->sites[i];
        }
    }
    return NULL;
}

bool world_runs(world *w, uint8_t node) {
    return node == 0 ? w->clf != NULL : world_site(w, node)->node != NULL;
}

wire *world_wire(world *w, uint8_t host, bool at_host) {
    site *s = world_site(w, host);
    return at_host ? &s->to_host : &s->to_clf;
}

static void drop_first(wire *on) {
    on->count--;
    memmove(on->frames, on->frames + 1, on->count * sizeof on->frames[0]);
}

static void say_lost(uint8_t host, bool at_host, const frame *f, const char *cause) {
    say("lost %02X%c ", host, at_host ? 'h' : 'c');
    for (size_t i = 0; i < f->length; i++) {
        say("%02X", f->bytes[i]);
    }
    say(" %s\n", cause);
}

/* A frame goes out at an end: its number, where it is an RSET; and the oldest is lost where the wire is full. */
static void put_frame(site *s, bool at_host, const uint8_t *bytes, size_t length) {
    wire *to = at_host ? &s->to_clf : &s->to_host, *from = at_host ? &s->to_host : &s->to_clf;
    frame f = {.length = length};
    memcpy(f.bytes, bytes, length);
    if (bytes[0] == 0xF9) {
        f.number = from->emitted = ++s->resets;
    }
    say("emit %02X%c ", s->host, at_host ? 'h' : 'c');
    say_bytes(bytes, length);
    if (to->count == MOST_ON_WIRE) {
        say_lost(s->host, !at_host, &to->frames[0], "full");
        drop_first(to);
    }
    to->frames[to->count++] = f;
}

static void send_of_host(site *s) {
    uint8_t bytes[30];
    size_t length;
    for (;;) {
        must(swp_host_next(s->node, bytes, &length) == SWP_OK, "a host gives its frames");
        if (length == 0) {
            return;
        }
        put_frame(s, true, bytes, length);
    }
}

static void send_of_clf(world *w) {
    uint8_t bytes[30];
    size_t length;
    for (size_t i = 0; i < w->count; i++) {
        for (;;) {
            must(swp_controller_next(w->clf, w->sites[i].host, bytes, &length) == SWP_OK, "a controller gives its frames");
            if (length == 0) {
                break;
            }
            put_frame(&w->sites[i], false, bytes, length);
        }
    }
}

static void lose_power(world *w, uint8_t node) {
    for (size_t i = 0; i < w->count; i++) {
        if (node == 0 || w->sites[i].host == node) {
            w->sites[i].to_clf.count = w->sites[i].to_host.count = 0;
        }
    }
    if (node == 0) {
        w->clf = NULL;
    } else {
        world_site(w, node)->node = NULL;
    }
}

/* What follows a step: the frames go out, or the node has lost its power. */
static void finish(world *w, uint8_t node, swp_code code) {
    must(code == SWP_OK || code == SWP_STOPPED, "a step runs");
    if (code == SWP_STOPPED) {
        lose_power(w, node);
    } else if (node == 0) {
        send_of_clf(w);
    } else {
        send_of_host(world_site(w, node));
    }
}

void world_boot(world *w, uint8_t node) {
    site *s = node == 0 ? NULL : world_site(w, node);
    memory *m = node == 0 ? &w->memory : &s->memory;
    swp_board board = {m, nv_read, nv_write, told};
    uint8_t hosts = 0;
    for (size_t i = 0; i < w->count; i++) {
        hosts |= (uint8_t)(1 << w->sites[i].host);
    }
    swp_code code = node == 0 ? swp_controller_boot(w->heap, SWP_CONTROLLER_HEAP(w->count), hosts, &board, &w->clf)
                              : swp_host_boot(s->heap, SWP_HOST_HEAP, node, &board, &s->node);
    if (code == SWP_NV_FAILED) {
        lose_power(w, node);
        say("cut %02X\n", node);
        return;
    }
    must(code == SWP_OK, "a node boots");
    w->used_at_boot[node] = swp_heap_used(node == 0 ? w->heap : s->heap);
    uint32_t count;
    code = node == 0 ? swp_controller_commands(w->clf, &count) : swp_host_commands(s->node, &count);
    must(code == SWP_OK, "a node says how many commands it has");
    say("booted %02X %u\n", node, count);
}

void world_cut(world *w, uint8_t node) {
    lose_power(w, node);
    say("cut %02X\n", node);
}

void world_activate(world *w, uint8_t host, uint16_t sync, uint8_t power) {
    site *s = world_site(w, host);
    s->to_clf.count = s->to_host.count = 0;
    finish(w, 0, swp_controller_activate(w->clf, host, power));
    swp_code code = swp_host_activate(s->node, sync);
    s->to_clf.count = s->to_host.count = 0;
    finish(w, host, code);
}

void world_take(world *w, uint8_t host, bool at_host) {
    site *s = world_site(w, host);
    wire *on = world_wire(w, host, at_host);
    frame f = on->frames[0];
    drop_first(on);
    say("took %02X%c ", host, at_host ? 'h' : 'c');
    say_bytes(f.bytes, f.length);
    if (f.number > on->took) {
        on->took = f.number;
    }
    if (at_host) {
        finish(w, host, swp_host_take(s->node, f.bytes, f.length));
    } else {
        finish(w, 0, swp_controller_take(w->clf, host, f.bytes, f.length));
    }
}

void world_lose(world *w, uint8_t host, bool at_host, const char *cause) {
    wire *on = world_wire(w, host, at_host);
    say_lost(host, at_host, &on->frames[0], cause);
    drop_first(on);
    if (strcmp(cause, "asked") != 0 && strcmp(cause, "none") != 0) {
        swp_code code = at_host ? swp_host_refused(world_site(w, host)->node) : swp_controller_refused(w->clf, host);
        must(code == SWP_OK, "a node counts a refused frame");
    }
}

static void grow_older(uint8_t host, bool at_host, wire *on) {
    for (size_t left = on->count, at = 0; left > 0; left--) {
        if (on->frames[at].age < 4) {
            on->frames[at++].age++;
            continue;
        }
        say_lost(host, at_host, &on->frames[at], "age");
        on->count--;
        memmove(on->frames + at, on->frames + at + 1, (on->count - at) * sizeof on->frames[0]);
    }
}

void world_tick(world *w) {
    for (size_t i = 0; i < w->count; i++) {
        grow_older(w->sites[i].host, false, &w->sites[i].to_clf);
        grow_older(w->sites[i].host, true, &w->sites[i].to_host);
    }
    if (w->clf != NULL) {
        finish(w, 0, swp_controller_tick(w->clf));
    }
    for (size_t i = 0; i < w->count; i++) {
        if (w->sites[i].node != NULL) {
            finish(w, w->sites[i].host, swp_host_tick(w->sites[i].node));
        }
    }
}

bool world_rests(world *w) {
    bool rests = true;
    must(w->clf == NULL || swp_controller_at_rest(w->clf, &rests) == SWP_OK, "a controller says whether it rests");
    for (size_t i = 0; i < w->count; i++) {
        site *s = &w->sites[i];
        bool its = true;
        must(s->node == NULL || swp_host_at_rest(s->node, &its) == SWP_OK, "a host says whether it rests");
        rests = rests && its && s->to_clf.count == 0 && s->to_host.count == 0;
    }
    return rests;
}

static const char *refusal(swp_code code) {
    switch (code) {
    case SWP_NOT_UP: return "not-up";
    case SWP_WAITING: return "waiting";
    case SWP_TOO_LONG: return "too-long";
    case SWP_FULL: return "full";
    case SWP_INACTIVE: return "inactive";
    default: return NULL;
    }
}

const char *world_reset(world *w, uint8_t host, bool at_host, uint8_t window) {
    swp_code code = at_host ? swp_host_reset(world_site(w, host)->node, window) : swp_controller_reset(w->clf, host, window);
    if (refusal(code) == NULL) {
        finish(w, at_host ? host : 0, code);
    }
    return refusal(code);
}

const char *world_send(world *w, uint8_t host, uint8_t pipe, const uint8_t *message, size_t length) {
    swp_code code = swp_host_send(world_site(w, host)->node, pipe, message, length);
    if (refusal(code) == NULL) {
        finish(w, host, code);
    }
    return refusal(code);
}

const char *world_init(world *w, uint8_t host, const uint8_t *identity, const uint8_t *pipes, size_t count) {
    swp_code code = swp_host_init(world_site(w, host)->node, identity, pipes, count);
    if (refusal(code) == NULL) {
        finish(w, host, code);
    }
    return refusal(code);
}
