/* Plays a schedule of a controller and hosts through the interface, as `swp replay` does, and prints the transcript that it can tell of: all but
 * the tables and the numbers of a full end. */
#include "world.h"

#include <ctype.h>
#include <stdio.h>
#include <stdlib.h>
#include <string.h>

static world the_world;
static char line[9003];
static char *words[1200];
static size_t count;

static void split(char *text) {
    count = 0;
    for (char *word = strtok(text, " \r\n"); word != NULL; word = strtok(NULL, " \r\n")) {
        must(count < 1200, "a line has few words");
        words[count++] = word;
    }
}

static size_t bytes_of(const char *hex, uint8_t *to, size_t most) {
    size_t length = strlen(hex) / 2;
    must(length <= most, "there is room for the bytes of a word");
    for (size_t i = 0; i < length; i++) {
        char pair[3] = {hex[2 * i], hex[2 * i + 1], 0};
        to[i] = (uint8_t)strtoul(pair, NULL, 16);
    }
    return length;
}

static uint8_t number_of(const char *hex) {
    uint8_t number;
    must(bytes_of(hex, &number, 1) == 1, "a number has one byte");
    return number;
}

/* The end of a link in word 1: its host, and whether it is the host's. */
static uint8_t end_of(bool *at_host) {
    char link[3] = {words[1][0], words[1][1], 0};
    *at_host = words[1][2] == 'h';
    return number_of(link);
}

static unsigned long decimal(size_t word, unsigned long otherwise) {
    return word < count ? strtoul(words[word], NULL, 10) : otherwise;
}

static void no(const char *cause) {
    if (cause != NULL) {
        say("no %s\n", cause);
    }
}

static void take_some(uint8_t host, bool at_host, size_t times) {
    while (times-- > 0 && world_runs(&the_world, at_host ? host : 0)) {
        world_take(&the_world, host, at_host);
    }
}

/* What is read of the bits of a frame with these places turned over: the verdict's word, or null where it is the same frame. */
static const char *read_damaged(const frame *f, bool *bits, size_t length) {
    static uint64_t heap[SWP_DECODER_HEAP / 8 + 1];
    char lines[SWP_LINES];
    static char verdict[16];
    size_t got;
    swp_decoder *decoder;
    must(swp_decoder_make(heap, sizeof heap, &decoder) == SWP_OK, "a decoder is made");
    for (size_t i = 0; i < length + 8; i++) {
        uint8_t period = i < length && bits[i] ? 0x54 : 0x40;
        must(swp_decoder_step(decoder, period, lines, &got) == SWP_OK, "a decoder reads a period");
        if (got > 0) {
            char read[64];
            must(sscanf(lines, "s1 %*u %63s", read) == 1, "a decoder says what it read");
            if (islower((unsigned char)read[0])) {
                return strcpy(verdict, read);
            }
            uint8_t bytes[30];
            must(bytes_of(read, bytes, 30) == f->length && memcmp(bytes, f->bytes, f->length) == 0, "a damage is seen");
            return NULL;
        }
    }
    return "none";
}

static void damage(uint8_t host, bool at_host) {
    wire *on = world_wire(&the_world, host, at_host);
    if (!world_runs(&the_world, at_host ? host : 0) || on->count == 0) {
        no(world_runs(&the_world, at_host ? host : 0) ? "empty" : "off");
        return;
    }
    bool bits[336];
    size_t length;
    must(swp_frame_write(on->frames[0].bytes, on->frames[0].length, bits, &length) == SWP_OK, "a frame is written as bits");
    for (size_t i = 2; i < count; i++) {
        size_t place = decimal(i, 0);
        if (place >= length) {
            say("no beyond %lu\n", (unsigned long)length);
            return;
        }
    }
    for (size_t i = 2; i < count; i++) {
        bits[decimal(i, 0)] ^= true;
    }
    const char *verdict = read_damaged(&on->frames[0], bits, length);
    if (verdict == NULL) {
        world_take(&the_world, host, at_host);
    } else {
        world_lose(&the_world, host, at_host, verdict);
    }
}

static void at_an_end(void) {
    bool at_host;
    uint8_t host = end_of(&at_host);
    wire *on = world_wire(&the_world, host, at_host);
    bool runs = world_runs(&the_world, at_host ? host : 0);
    static uint8_t message[5000], pipes[24];
    if (strcmp(words[0], "damage") == 0) {
        damage(host, at_host);
    } else if (!runs) {
        no("off");
    } else if (strcmp(words[0], "send") == 0) {
        no(world_send(&the_world, host, number_of(words[2]), message, bytes_of(words[3], message, sizeof message)));
    } else if (strcmp(words[0], "reset") == 0) {
        no(world_reset(&the_world, host, at_host, (uint8_t)decimal(2, 0)));
    } else if (strcmp(words[0], "init") == 0) {
        bytes_of(words[2], message, 8);
        for (size_t i = 3; i < count; i++) {
            bytes_of(words[i], pipes + 3 * (i - 3), 3);
        }
        no(world_init(&the_world, host, message, pipes, count - 3));
    } else if (on->count == 0) {
        no("empty");
    } else if (strcmp(words[0], "lose") == 0) {
        world_lose(&the_world, host, at_host, "asked");
    } else {
        unsigned long most = decimal(2, on->count);
        take_some(host, at_host, most < on->count ? most : on->count);
    }
}

static void settle(unsigned long most) {
    unsigned long rounds = 0;
    while (rounds < most && !world_rests(&the_world)) {
        for (size_t i = 0; i < the_world.count; i++) {
            uint8_t host = the_world.sites[i].host;
            take_some(host, false, the_world.sites[i].to_clf.count);
            take_some(host, true, the_world.sites[i].to_host.count);
        }
        world_tick(&the_world);
        rounds++;
    }
    say("settled %lu\n", rounds);
}

static void at_a_node(void) {
    uint8_t node = number_of(words[1]);
    bool runs = world_runs(&the_world, node);
    if (strcmp(words[0], "boot") == 0) {
        runs ? no("running") : world_boot(&the_world, node);
    } else if (strcmp(words[0], "cut") == 0) {
        runs ? world_cut(&the_world, node) : no("off");
    } else if (strcmp(words[0], "activate") == 0) {
        uint8_t sync[2];
        bytes_of(words[2], sync, 2);
        bool both = runs && world_runs(&the_world, 0);
        both ? world_activate(&the_world, node, (uint16_t)(sync[0] << 8 | sync[1]), number_of(words[3])) : no("off");
    } else if (strcmp(words[0], "arm") == 0) {
        memory *m = node == 0 ? &the_world.memory : &world_site(&the_world, node)->memory;
        m->failing = (unsigned)decimal(2, 0);
        m->fill_length = bytes_of(words[3], m->fill, sizeof m->fill);
    } else {
        must(strcmp(words[0], "tables") == 0, "a word is known");
        if (!runs) {
            no("off");
        }
    }
}

static void play(void) {
    static const char *const at_ends[] = {"send", "deliver", "lose", "damage", "reset", "init"};
    for (size_t i = 0; i < sizeof at_ends / sizeof at_ends[0]; i++) {
        if (strcmp(words[0], at_ends[i]) == 0) {
            at_an_end();
            return;
        }
    }
    if (strcmp(words[0], "tick") == 0) {
        for (unsigned long times = decimal(1, 1); times > 0; times--) {
            world_tick(&the_world);
        }
    } else if (strcmp(words[0], "settle") == 0) {
        settle(decimal(1, 0));
    } else if (strcmp(words[0], "swp") == 0) {
        uint8_t hosts = 0;
        for (size_t i = 3; i < count; i++) {
            hosts |= (uint8_t)(1 << number_of(words[i]));
        }
        world_make(&the_world, hosts);
    } else {
        at_a_node();
    }
}

int main(void) {
    unsigned long lines = 0;
    while (fgets(line, sizeof line, stdin) != NULL) {
        lines++;
        split(line);
        if (count == 0 || words[0][0] == '#') {
            continue;
        }
        say(">");
        for (size_t i = 0; i < count; i++) {
            say(" %s", words[i]);
        }
        say("\n");
        play();
    }
    say("done %lu\n", lines);
    world_end(&the_world);
    return 0;
}
