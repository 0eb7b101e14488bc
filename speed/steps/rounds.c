// The schedule of drive/src/main.rt.in in plain C, in place, as a C programmer would write it. -DAPART keeps the steps out of line.
#include <stdint.h>
#include <stdio.h>
#include <string.h>
#include <unistd.h>

#ifdef APART
#define STEP __attribute__((noinline)) static
#else
#define STEP static
#endif

typedef struct {
    uint8_t state, round, taken[16];
    uint32_t value, world, outs, noticed;
} Bench;

typedef struct {
    Bench bench[16];
    uint8_t sent[16];
    uint32_t out;
    uint32_t values[16][96], worlds[16][96];
} Run;

STEP int start(Run *r, unsigned bench, uint32_t value, uint32_t world) {
    if (bench < 1 || bench > 16) return 1;
    unsigned k = bench - 1;
    Bench *b = &r->bench[k];
    if (b->state != 0) return 3;
    if (value > 65535) return 4;
    if (world > 65535 || !(world >> k & 1)) return 5;
    for (int j = 0; j < 16; j++)
        if ((r->bench[j].state == 1 || r->bench[j].state == 2) && !(world >> j & 1)) return 6;
    for (int j = 0; j < 16; j++)
        if (r->sent[j] && !(r->worlds[j][0] >> k & 1)) return 7;
    b->state = 1;
    b->round = 1;
    b->value = value;
    b->world = world;
    r->values[k][0] = value;
    r->worlds[k][0] = world;
    r->sent[k] = 1;
    b->taken[k] = 1;
    return 0;
}

STEP int arrive(Run *r, unsigned bench, unsigned from) {
    if (bench < 1 || bench > 16 || from < 1 || from > 16) return 1;
    if (bench == from) return 2;
    unsigned k = bench - 1, j = from - 1;
    Bench *b = &r->bench[k];
    if (b->state > 1) return 3;
    if (b->noticed >> j & 1) return 9;
    if (b->taken[j] < r->sent[j]) {
        b->taken[j]++;
        return 0;
    }
    if ((r->out >> j & 1) && !(b->outs >> j & 1)) {
        b->outs |= 1u << j;
        return 0;
    }
    return 8;
}

STEP int turn(Run *r, unsigned bench) {
    if (bench < 1 || bench > 16) return 1;
    unsigned k = bench - 1;
    Bench *b = &r->bench[k];
    if (b->state != 1) return 3;
    unsigned round = b->round;
    int agreed = 1, awaited = 0;
    uint32_t least = b->value, heard = 0;
    for (int j = 0; j < 16; j++) {
        if (!(b->world >> j & 1)) continue;
        if (b->taken[j] >= round) {
            uint32_t v = r->values[j][round - 1], w = r->worlds[j][round - 1];
            if (v != b->value || (w & ~b->world)) agreed = 0;
            if (v < least) least = v;
            heard |= 1u << j;
        } else if (!(b->outs >> j & 1)) {
            agreed = 0;
            if (!(b->noticed >> j & 1)) awaited = 1;
        }
    }
    if (awaited) return 11;
    if (agreed) {
        b->state = 2;
        r->out |= 1u << k;
        return 0;
    }
    b->round = round + 1;
    b->value = least;
    b->world = heard;
    r->values[k][round] = least;
    r->worlds[k][round] = heard;
    r->sent[k] = round + 1;
    b->taken[k] = round + 1;
    return 0;
}

static uint64_t mix(uint64_t sum, uint64_t x) { return (sum * 3 + x) % 1048576; }

static uint64_t play(Run *r, uint32_t seed, uint64_t sum) {
    memset(r, 0, sizeof *r);
    for (unsigned k = 1; k < 17; k++) sum = mix(sum, start(r, k, (seed * 7 + k * 13) % 60000, 65535));
    for (int i = 0; i < 2; i++) {
        for (unsigned k = 1; k < 17; k++)
            for (unsigned j = 1; j < 17; j++) sum = mix(sum, arrive(r, k, j));
        for (unsigned k = 1; k < 17; k++) sum = mix(sum, turn(r, k));
    }
    for (int k = 0; k < 16; k++)
        sum = mix(mix(mix(sum, r->bench[k].state), r->sent[k]), r->bench[k].state == 2 ? r->bench[k].value : 0);
    return sum;
}

int main(void) {
    static char text[4096];
    static Run run;
    int n = read(0, text, sizeof text);
    uint64_t sum = 0;
    for (int i = 0; i < n; i++) sum = play(&run, i, sum);
    printf("%llu", (unsigned long long)sum);
    return 0;
}
