/* The schedule program as one would write it in C, from document 01 alone: for the speed of the proved program to be held against.
 * Plain structs, no lent words, no damage tests (nothing can be damaged here), large buffers, digits by table. */
#include <stdint.h>
#include <stdio.h>
#include <stdlib.h>
#include <string.h>
#include <unistd.h>

enum { MAX_WORKERS = 64, MAX_ITEMS = 256, MAX_NODES = 4096, LENT_WORDS = 16384, LINE_MAX_KEPT = 65 };
#define TBD UINT32_MAX
#define NONE UINT32_MAX

/* Help (lines 20, 21, 22) is three phases in a row. */
enum phase {
    IDLE,
    VREAD_37, VREAD_20, VREAD_21, VREAD_22, VREAD_39,
    VCAS_41, VCAS_20, VCAS_21, VCAS_22, VCAS_43, VCAS_45, VCAS_46,
    WON_20, WON_21, WON_22, WON_48,
    LOST_50, LOST_51, LOST_20, LOST_21, LOST_22, LOST_52,
    TAKE_5, TAKE_6,
    READ_32, READ_20, READ_21, READ_22, READ_34,
    TOTAL_32, TOTAL_20, TOTAL_21, TOTAL_22, TOTAL_34, TOTAL_CLOSE
};

struct worker {
    uint32_t phase, steps, item, old_value, new_value, handle, project, noted, node, new_node, seen;
    uint64_t sum;
};
struct item { uint32_t head, birth, size; };
struct node { uint32_t value, older, stamp; };
struct answer { uint32_t code; uint64_t value; uint32_t steps; };

static struct {
    uint32_t worker_count, item_limit, node_limit, projects, counter_limit;
    uint32_t counter, item_count, used, given_back;
    struct worker workers[MAX_WORKERS];
    struct item items[MAX_ITEMS];
    struct node nodes[MAX_NODES];
} c;
static int made;

static struct answer reply(uint32_t code, uint64_t value, uint32_t steps) { return (struct answer){code, value, steps}; }
static struct answer refuse(uint32_t number) { return reply(16 + number, 0, 0); }

static struct answer make(uint32_t p, uint32_t m, uint32_t n, uint32_t q, uint32_t limit) {
    if (p < 1 || p > 64 || m < 1 || m > 256 || n < 1 || n > 4096 || q < 1 || q > 256 || limit < 1 || 16 + 16 * p + 4 * m + 3 * n > LENT_WORDS) return refuse(1);
    memset(&c, 0, sizeof c);
    c.worker_count = p, c.item_limit = m, c.node_limit = n, c.projects = q, c.counter_limit = limit;
    c.given_back = NONE;
    made = 1;
    return reply(2, 0, 0);
}

static uint32_t take_node(void) {
    if (c.given_back != NONE) {
        uint32_t n = c.given_back;
        c.given_back = c.nodes[n].older;
        return n;
    }
    return c.used < c.node_limit ? c.used++ : NONE;
}

static struct answer enroll(uint32_t value, uint32_t size) {
    if (!made) return refuse(2);
    if (value >= c.projects) return refuse(7);
    if (c.item_count >= c.item_limit) return refuse(10);
    uint32_t n = take_node();
    if (n == NONE) return refuse(11);
    c.nodes[n] = (struct node){value, NONE, c.counter};
    c.items[c.item_count] = (struct item){n, c.counter, size};
    return reply(2, c.item_count++, 0);
}

static struct answer start(uint32_t w, struct worker record) {
    c.workers[w] = record;
    return reply(2, 0, 0);
}

#define FREE_WORKER(w) \
    if (!made) return refuse(2); \
    if ((w) >= c.worker_count) return refuse(3); \
    if (c.workers[w].phase != IDLE) return refuse(4)

static struct answer start_vread(uint32_t w, uint32_t i) {
    FREE_WORKER(w);
    if (i >= c.item_count) return refuse(6);
    return start(w, (struct worker){.phase = VREAD_37, .item = i});
}
static struct answer start_vcas(uint32_t w, uint32_t i, uint32_t o, uint32_t n) {
    FREE_WORKER(w);
    if (i >= c.item_count) return refuse(6);
    if (o >= c.projects || n >= c.projects) return refuse(7);
    return start(w, (struct worker){.phase = VCAS_41, .item = i, .old_value = o, .new_value = n});
}
static struct answer start_take_snapshot(uint32_t w) {
    FREE_WORKER(w);
    return start(w, (struct worker){.phase = TAKE_5});
}
static struct answer start_read_snapshot(uint32_t w, uint32_t i, uint32_t h) {
    FREE_WORKER(w);
    if (i >= c.item_count) return refuse(6);
    if (h >= c.counter) return refuse(8);
    if (h < c.items[i].birth) return refuse(9);
    return start(w, (struct worker){.phase = READ_32, .item = i, .handle = h});
}
static struct answer start_total(uint32_t w, uint32_t q, uint32_t h) {
    FREE_WORKER(w);
    if (q >= c.projects) return refuse(7);
    if (h >= c.counter) return refuse(8);
    return start(w, (struct worker){.phase = c.item_count ? TOTAL_32 : TOTAL_CLOSE, .handle = h, .project = q, .noted = c.item_count});
}

static struct answer go_on(struct worker *k, uint32_t phase) {
    k->phase = phase;
    return reply(1, 0, ++k->steps);
}
static struct answer finish(struct worker *k, uint64_t value) {
    uint32_t steps = k->steps + 1;
    memset(k, 0, sizeof *k);
    return reply(0, value, steps);
}
static struct answer end_with(struct worker *k, uint32_t number) {
    uint32_t steps = k->steps + 1;
    memset(k, 0, sizeof *k);
    return reply(16 + number, 0, steps);
}
static struct answer next_item(struct worker *k) {
    k->item++;
    return go_on(k, k->item == k->noted ? TOTAL_CLOSE : TOTAL_32);
}

static struct answer step(uint32_t w) {
    if (!made) return refuse(2);
    if (w >= c.worker_count) return refuse(3);
    struct worker *k = &c.workers[w];
    struct node *n = &c.nodes[k->node];
    switch (k->phase) {
    case IDLE:
        return refuse(5);
    case VREAD_37: case VCAS_41: case LOST_51: case READ_32:
        k->node = c.items[k->item].head;
        return go_on(k, k->phase + 1);
    case VREAD_20: case VCAS_20: case WON_20: case LOST_20: case READ_20: case TOTAL_20:
        return go_on(k, k->phase + (n->stamp == TBD ? 1 : 3));
    case VREAD_21: case VCAS_21: case WON_21: case LOST_21: case READ_21: case TOTAL_21:
        k->seen = c.counter;
        return go_on(k, k->phase + 1);
    case VREAD_22: case VCAS_22: case WON_22: case LOST_22: case READ_22: case TOTAL_22:
        if (n->stamp == TBD) n->stamp = k->seen;
        return go_on(k, k->phase + 1);
    case VREAD_39:
        return finish(k, n->value);
    case VCAS_43:
        if (n->value != k->old_value) return finish(k, 0);
        if (k->new_value == k->old_value) return finish(k, 1);
        return go_on(k, VCAS_45);
    case VCAS_45: {
        uint32_t t = take_node();
        if (t == NONE) return end_with(k, 11);
        c.nodes[t] = (struct node){k->new_value, k->node, TBD};
        k->new_node = t;
        return go_on(k, VCAS_46);
    }
    case VCAS_46:
        if (c.items[k->item].head != k->node) return go_on(k, LOST_50);
        c.items[k->item].head = k->node = k->new_node;
        return go_on(k, WON_20);
    case WON_48:
        return finish(k, 1);
    case LOST_50:
        c.nodes[k->new_node].older = c.given_back;
        c.given_back = k->new_node;
        return go_on(k, LOST_51);
    case LOST_52:
        return finish(k, 0);
    case TAKE_5:
        if (c.counter >= c.counter_limit) return end_with(k, 12);
        k->seen = c.counter;
        return go_on(k, TAKE_6);
    case TAKE_6:
        if (c.counter == k->seen) c.counter++;
        return finish(k, k->seen);
    case READ_34:
        if (n->stamp <= k->handle) return finish(k, n->value);
        k->node = n->older;
        return go_on(k, READ_34);
    case TOTAL_32:
        if (c.items[k->item].birth > k->handle) return next_item(k);
        k->node = c.items[k->item].head;
        return go_on(k, TOTAL_20);
    case TOTAL_34:
        if (n->stamp > k->handle) {
            k->node = n->older;
            return go_on(k, TOTAL_34);
        }
        if (n->value == k->project) k->sum += c.items[k->item].size;
        return next_item(k);
    default:
        return finish(k, k->sum);
    }
}

/* Frames. digit_of[b] is 0 to 15, or 16 for a byte that is no lower-case hexadecimal digit. */
static uint8_t digit_of[256];

/* Up to five arguments of four digits. A wrong digit leaves 16 in the bits that are collected. */
static int arguments(const unsigned char *s, int count, uint32_t *a) {
    uint32_t wrong = 0;
    for (int i = 0; i < count; i++, s += 4) {
        uint32_t p = digit_of[s[0]], q = digit_of[s[1]], r = digit_of[s[2]], t = digit_of[s[3]];
        wrong |= p | q | r | t;
        a[i] = p << 12 | q << 8 | r << 4 | t;
    }
    return !(wrong & 16);
}

static struct answer frame(const unsigned char *s, size_t n) {
    static const uint8_t count_of[9] = {0, 5, 2, 2, 4, 1, 3, 3, 1};
    if (n < 6 || n > 22) return refuse(13);
    uint32_t high = digit_of[s[0]], operation = digit_of[s[1]], a[5];
    if (high != 0 || operation > 8 || operation == 0) return refuse(13);
    int count = count_of[operation];
    if (n != 2 + 4 * (size_t)count || !arguments(s + 2, count, a)) return refuse(13);
    switch (operation) {
    case 1: return make(a[0], a[1], a[2], a[3], a[4]);
    case 2: return enroll(a[0], a[1]);
    case 3: return start_vread(a[0], a[1]);
    case 4: return start_vcas(a[0], a[1], a[2], a[3]);
    case 5: return start_take_snapshot(a[0]);
    case 6: return start_read_snapshot(a[0], a[1], a[2]);
    case 7: return start_total(a[0], a[1], a[2]);
    default: return step(a[0]);
    }
}

/* Output, in one large buffer, by two digits at a time. */
static char out[1 << 16];
static size_t out_used;
static char two_digits[256][2];

static void flush_out(void) {
    size_t done = 0;
    while (done < out_used) {
        ssize_t put = write(1, out + done, out_used - done);
        if (put <= 0) {
            perror("schedule");
            exit(1);
        }
        done += (size_t)put;
    }
    out_used = 0;
}

static void print(struct answer a) {
    if (out_used + 23 > sizeof out) flush_out();
    char *o = out + out_used;
    memcpy(o, two_digits[a.code & 255], 2);
    for (int i = 0; i < 8; i++) memcpy(o + 2 + 2 * i, two_digits[a.value >> (56 - 8 * i) & 255], 2);
    memcpy(o + 18, two_digits[a.steps >> 8 & 255], 2);
    memcpy(o + 20, two_digits[a.steps & 255], 2);
    o[22] = '\n';
    out_used += 23;
}

static unsigned char in[1 << 16];

int main(void) {
    static const char digits[] = "0123456789abcdef";
    memset(digit_of, 16, sizeof digit_of);
    for (int i = 0; i < 16; i++) digit_of[(unsigned char)digits[i]] = (uint8_t)i;
    for (int i = 0; i < 256; i++) two_digits[i][0] = digits[i >> 4], two_digits[i][1] = digits[i & 15];
    size_t held = 0;
    for (;;) {
        ssize_t got = read(0, in + held, sizeof in - held);
        if (got < 0) {
            perror("schedule");
            return 1;
        }
        if (got == 0) break;
        unsigned char *s = in, *end = in + held + got, *feed;
        while (s < end && (feed = memchr(s, '\n', (size_t)(end - s)))) {
            print(frame(s, (size_t)(feed - s)));
            s = feed + 1;
        }
        held = (size_t)(end - s);
        if (held > LINE_MAX_KEPT) held = LINE_MAX_KEPT; /* a line over 64 characters is refused whatever it holds */
        memmove(in, s, held);
    }
    if (held) print(frame(in, held));
    flush_out();
    return 0;
}
