// The rates of a chain, as `solve_times rates` prints them: the states and the bound on the rates out of one, then a
// line for each rate that is not 0.
#ifndef CHAIN_H
#define CHAIN_H

#include <stdint.h>
#include <stdio.h>
#include <stdlib.h>
#include <time.h>

struct rate {
    size_t from;
    size_t to;
    uint64_t rate;
};

struct chain {
    size_t states;
    uint64_t top;
    size_t count;
    struct rate *rates;
};

static inline void *reserved(size_t count, size_t size) {
    void *memory = calloc(count, size);
    if (memory == NULL) {
        fputs("out of memory\n", stderr);
        exit(1);
    }
    return memory;
}

static inline struct chain read_chain(FILE *file) {
    struct chain chain = {0};
    struct rate rate;
    if (fscanf(file, "%zu %lu", &chain.states, &chain.top) != 2) {
        fputs("no chain\n", stderr);
        exit(1);
    }
    chain.rates = reserved(16 * chain.states, sizeof(struct rate));
    while (fscanf(file, "%zu %zu %lu", &rate.from, &rate.to, &rate.rate) == 3)
        chain.rates[chain.count++] = rate;
    return chain;
}

static inline uint64_t nanoseconds(void) {
    struct timespec now;
    clock_gettime(CLOCK_MONOTONIC, &now);
    return (uint64_t)now.tv_sec * 1000000000u + (uint64_t)now.tv_nsec;
}

#endif
