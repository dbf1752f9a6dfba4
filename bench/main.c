// Times the proved run beside the same run in C, and prints a table. Both get the same code and the same clip, by calls
// through a pointer, in rounds by turns; the best round counts. The status is 1 if what they answer or write differs,
// else 2 if the library takes more than 1.3 times as long.
#include <stdbool.h>
#include <stdio.h>
#include <string.h>
#include <time.h>

#include "limits.h"
#include "machine.h"

// An instruction has a byte for its code and at most three numbers of two bytes.
enum { ROUNDS = 30, MACHINES = 2, MOST_BYTES = 1 + 3 * 2 };

static const double most = 1.3;

static run_function *volatile const machines[MACHINES] = {thistlecart_run, machine_run};

// Splitmix64.
static uint64_t state = 3;
static uint64_t draw(void) {
    uint64_t z = state += 0x9e3779b97f4a7c15;
    z = (z ^ z >> 30) * 0xbf58476d1ce4e5b9;
    z = (z ^ z >> 27) * 0x94d049bb133111eb;
    return z ^ z >> 31;
}
static unsigned below(unsigned count) { return (unsigned)(draw() % count); }

// Code as an emitter writes it, with the numbers of the instructions whose values wait for an operator.
static struct {
    uint8_t bytes[INSTRUCTIONS * MOST_BYTES];
    size_t length;
    unsigned instructions, reaches, distances;
    unsigned waiting[INSTRUCTIONS], values;
} code;

static void number(unsigned n) {
    if (n < 128) {
        code.bytes[code.length++] = (uint8_t)n;
    } else {
        code.bytes[code.length++] = (uint8_t)(128 + n % 128);
        code.bytes[code.length++] = (uint8_t)(n / 128);
    }
}
static unsigned byte(uint8_t b) {
    code.bytes[code.length++] = b;
    return code.instructions++;
}
static unsigned one(void) { return byte(1); }
static unsigned flag(unsigned k) {
    unsigned n = byte(2);
    number(k);
    return n;
}
static unsigned nand(unsigned i, unsigned j) {
    unsigned n = byte(3);
    number(i);
    number(j);
    return n;
}
static unsigned not(unsigned i) { return nand(i, i); }
static unsigned timed(unsigned i, unsigned j, unsigned a, unsigned w) {
    unsigned n = byte(4);
    number(i);
    number(j);
    number(w);
    code.reaches++;
    if (a == 0)
        return n;
    unsigned later = byte(5);
    number(n);
    number(a);
    code.distances += a;
    return later;
}

static void push(unsigned n) { code.waiting[code.values++] = n; }
static unsigned pop(void) { return code.waiting[--code.values]; }

static void both(void) {
    unsigned r = pop(), l = pop();
    push(not(nand(l, r)));
}
static void either(void) {
    unsigned r = pop(), l = pop();
    l = not(l);
    push(nand(l, not(r)));
}
static void until(unsigned a, unsigned w) {
    unsigned r = pop(), l = pop();
    push(timed(l, r, a, w));
}
static void eventually(unsigned a, unsigned w) {
    unsigned r = pop();
    push(timed(one(), r, a, w));
}
static void globally(unsigned a, unsigned w) {
    unsigned r = pop(), l = one();
    push(not(timed(l, not(r), a, w)));
}

// Code of about so many instructions, of which so many are REACH, with distances of at most `distance`.
static void emit(unsigned size, unsigned reaches, unsigned distance) {
    memset(&code, 0, sizeof code);
    push(flag(0));
    push(flag(1));
    while (code.instructions + 2 * code.values < size + 2) {
        bool due = code.reaches * size < code.instructions * reaches && code.reaches < reaches;
        unsigned a = 1 + below(distance), w = 2 + below(60);
        if (due && code.values > 1)
            until(a, w);
        else if (due && below(2))
            eventually(a, w);
        else if (due)
            globally(a, w);
        else if (code.values < 2 || below(3) == 0)
            push(flag(below(FLAGS)));
        else if (below(2))
            both();
        else
            either();
    }
    while (code.values > 1)
        if (below(2))
            both();
        else
            either();
}

static double seconds(void) {
    struct timespec t;
    clock_gettime(CLOCK_MONOTONIC, &t);
    return (double)t.tv_sec + 1e-9 * (double)t.tv_nsec;
}

static unsigned rows, different, missed;

// Times one code and prints its line.
static void bench(const uint8_t *clip) {
    static uint8_t out[MACHINES][FRAMES];
    double best[MACHINES] = {1e9, 1e9};
    uint64_t answer[MACHINES] = {1, 1};
    memset(out[0], 2, FRAMES);
    memset(out[1], 3, FRAMES);
    for (int round = 0; round < ROUNDS; round++)
        for (int turn = 0; turn < MACHINES; turn++) {
            int m = (round + turn) % MACHINES;
            double began = seconds();
            answer[m] = machines[m](code.bytes, code.length, clip, FRAMES, out[m], FRAMES);
            double took = seconds() - began;
            if (took < best[m])
                best[m] = took;
        }
    bool same = answer[0] == 0 && answer[1] == 0 && memcmp(out[0], out[1], FRAMES) == 0;
    unsigned ones = 0;
    for (int n = 0; n < FRAMES; n++)
        ones += out[1][n];
    double ratio = best[0] / best[1];
    printf("%12u %6u %6u %9u %10.1f %6.1f %6.2f  %s%s\n", code.instructions, code.reaches, code.distances, ones,
           best[0] / FRAMES * 1e9, best[1] / FRAMES * 1e9, ratio, same ? "same" : "DIFFERENT",
           ratio > most ? ", MISSED" : "");
    rows++;
    different += !same;
    missed += ratio > most;
}

int main(void) {
    static const struct {
        unsigned size, reaches, distance;
    } codes[] = {{10, 1, 5}, {60, 6, 16}, {200, COUNTERS, DELAYS / COUNTERS}};
    static uint8_t clip[FRAMES];
    for (int n = 0; n < FRAMES; n++)
        clip[n] = (uint8_t)draw();
    printf("run: %d frames, best of %d rounds, nanoseconds a frame; target: ratio at most %.1f\n", FRAMES, ROUNDS,
           most);
    printf("instructions  REACH delays frames 1    library      C  ratio  answers\n");
    for (size_t k = 0; k < sizeof codes / sizeof codes[0]; k++) {
        emit(codes[k].size, codes[k].reaches, codes[k].distance);
        bench(clip);
    }
    printf("run: %u rows, %u different; %u targets, %u missed\n", rows, different, rows, missed);
    return different ? 1 : missed ? 2 : 0;
}
