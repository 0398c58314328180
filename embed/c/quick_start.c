/* A controller and a host in one program: the link comes up, and the host opens its administration pipe. */
#include "swp_stack.h"
#include <stdio.h>
#include <string.h>

static uint8_t memories[2][SWP_MEMORY]; /* in earnest a flash; new ones are all FF */
static uint64_t clf_heap[SWP_CONTROLLER_HEAP(1) / 8 + 1], card_heap[SWP_HOST_HEAP / 8 + 1];
static bool nv_read(void *m, uint32_t at, uint8_t *to, size_t n) { return memcpy(to, (uint8_t *)m + at, n) != NULL; }
static bool nv_write(void *m, uint32_t at, const uint8_t *from, size_t n) { return memcpy((uint8_t *)m + at, from, n) != NULL; }
static void told(void *m, const swp_told *t) {
    const char *who = m == memories[0] ? "controller" : "host 02";
    if (t->kind == SWP_TOLD_UP && m != memories[0]) printf("%s is up\n", who);
    if (t->kind == SWP_TOLD_GOT) printf("%s: pipe %02X brought %02X\n", who, t->pipe, t->message[0]);
}

static struct wire { uint8_t frames[64][30]; size_t lengths[64], first, end; } to_clf, to_card; /* in earnest the line */
#define FETCH(wire, next) while ((next) == SWP_OK && (wire).lengths[(wire).end % 64] > 0) (wire).end++
#define ROOM(wire) (wire).frames[(wire).end % 64], &(wire).lengths[(wire).end % 64]
#define FIRST(wire) (wire).frames[(wire).first % 64], (wire).lengths[(wire).first % 64]
static void talk(swp_controller *clf, swp_host *card) {
    for (;;) { /* all frames of a step are fetched before the next one */
        FETCH(to_clf, swp_host_next(card, ROOM(to_clf)));
        FETCH(to_card, swp_controller_next(clf, 2, ROOM(to_card)));
        if (to_clf.first < to_clf.end) swp_controller_take(clf, 2, FIRST(to_clf)), to_clf.first++;
        else if (to_card.first < to_card.end) swp_host_take(card, FIRST(to_card)), to_card.first++;
        else return;
    }
}

int main(void) {
    swp_board at_clf = {memories[0], nv_read, nv_write, told}, at_card = {memories[1], nv_read, nv_write, told};
    swp_controller *clf;
    swp_host *card;
    memset(memories, 0xFF, sizeof memories);
    if (swp_controller_boot(clf_heap, sizeof clf_heap, 1 << 2, &at_clf, &clf) || swp_host_boot(card_heap, sizeof card_heap, 2, &at_card, &card)) return 1;
    swp_host_activate(card, 0x1A2B), talk(clf, card);
    swp_controller_reset(clf, 2, 0), talk(clf, card);
    swp_host_send(card, 1, (const uint8_t[]){3}, 1), talk(clf, card); /* ANY_OPEN_PIPE on the administration pipe */
    return 0;
}
