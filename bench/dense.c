// The elimination of a chain and its back substitution in double precision, over a dense matrix (Grassmann, Taksar and
// Heyman 1985). Reads a chain from standard input, and prints the last state's share of the time and the nanoseconds
// of both.
#include "chain.h"

static double *dense(const struct chain *chain) {
    double *a = reserved(chain->states * chain->states, sizeof(double));
    for (size_t k = 0; k < chain->count; k++)
        a[chain->rates[k].from * chain->states + chain->rates[k].to] = (double)chain->rates[k].rate;
    return a;
}

static double leaving(const double *row, size_t state) {
    double sum = 0;
    for (size_t j = 0; j < state; j++)
        sum += row[j];
    return sum;
}

static void eliminate(double *restrict a, size_t states, size_t state) {
    const double *restrict row = a + state * states;
    const double out = leaving(row, state);
    for (size_t i = 0; i < state; i++) {
        double *restrict into = a + i * states;
        const double part = into[state] / out;
        for (size_t j = 0; j < state; j++)
            into[j] += part * row[j];
    }
}

static void substitute(const double *a, size_t states, double *masses) {
    masses[0] = 1;
    for (size_t state = 1; state < states; state++) {
        double inflow = 0;
        for (size_t i = 0; i < state; i++)
            inflow += masses[i] * a[i * states + state];
        masses[state] = inflow / leaving(a + state * states, state);
    }
}

int main(void) {
    const struct chain chain = read_chain(stdin);
    double *a = dense(&chain);
    double *masses = reserved(chain.states, sizeof(double));
    const uint64_t start = nanoseconds();
    for (size_t state = chain.states - 1; state > 0; state--)
        eliminate(a, chain.states, state);
    substitute(a, chain.states, masses);
    const uint64_t end = nanoseconds();
    const double all = leaving(masses, chain.states);
    printf("%.9f %lu\n", masses[chain.states - 1] / all, end - start);
    return 0;
}
