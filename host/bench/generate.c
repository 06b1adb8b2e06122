/* A long schedule for the benchmark: catalogues one after the other, eight workers stepped in an order that document 01's generator draws, all
 * five operations. It follows the calls with the C program's own catalogue, so that it starts operations of idle workers and steps busy ones.
 * usage: generate BYTES > FILE. Every run gives the same file. */
#define main schedule_main
#include "schedule.c"
#undef main

enum { WORKERS = 8, ITEMS = 64, PROJECTS = 16, NODES = 4096, CALLS = 40000 };

static uint32_t x;
static uint32_t draw(uint32_t below) {
    x = 1664525u * x + 1013904223u;
    return (x >> 16) % below;
}

static long written;
static void say(int operation, int count, uint32_t a, uint32_t b, uint32_t d, uint32_t e) {
    uint32_t all[] = {a, b, d, e};
    written += printf("%02x", operation);
    for (int i = 0; i < count; i++) written += printf("%04x", all[i]);
    written += printf("\n");
}

static void begin(uint32_t w) {
    uint32_t i = draw(ITEMS), q = draw(PROJECTS), h = draw(c.counter);
    switch (draw(8)) {
    case 0: case 1:
        say(3, 2, w, i, 0, 0), start_vread(w, i);
        break;
    case 2: case 3: case 4: {
        uint32_t old = draw(4) ? c.nodes[c.items[i].head].value : draw(PROJECTS);
        say(4, 4, w, i, old, q), start_vcas(w, i, old, q);
        break;
    }
    case 5:
        say(5, 1, w, 0, 0, 0), start_take_snapshot(w);
        break;
    case 6:
        say(6, 3, w, i, h, 0), start_read_snapshot(w, i, h);
        break;
    default:
        say(7, 3, w, q, h, 0), start_total(w, q, h);
    }
}

int main(int argc, char **argv) {
    long bytes = argc > 1 ? atol(argv[1]) : 50000000;
    while (written < bytes) {
        written += printf("01%04x%04x%04x%04x%04x\n", WORKERS, ITEMS, NODES, PROJECTS, 65535);
        make(WORKERS, ITEMS, NODES, PROJECTS, 65535);
        for (int i = 0; i < ITEMS; i++) {
            uint32_t q = draw(PROJECTS), size = draw(1000);
            say(2, 2, q, size, 0, 0), enroll(q, size);
        }
        say(5, 1, 0, 0, 0, 0), start_take_snapshot(0);
        for (int i = 0; i < 2; i++) say(8, 1, 0, 0, 0, 0), step(0);
        for (int k = 0; k < CALLS && written < bytes; k++) {
            uint32_t w = draw(WORKERS);
            if (c.workers[w].phase == IDLE) begin(w);
            else say(8, 1, w, 0, 0, 0), step(w);
        }
    }
    return 0;
}
