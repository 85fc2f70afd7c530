// The elimination of a chain of words over intervals with ends of 64 bits, its matrix packed by levels: the row loop of
// rate_matrix as a C programmer would write it. Reads a chain from standard input, and prints how many entries change,
// the nanoseconds of their changes, and the ends of the entry from the first state to the second.
#include "chain.h"

#include <string.h>

typedef unsigned __int128 wide;

struct ends {
    uint64_t lo;
    uint64_t hi;
};

// The rows of one level, each with the columns of the levels beside it.
struct band {
    size_t first;
    size_t rows;
    size_t left;
    size_t width;
    struct ends *cells;
};

struct matrix {
    size_t states;
    size_t levels;
    size_t *level;
    uint64_t *caps;
    struct band *bands;
};

static const uint64_t WHOLE = (uint64_t)1 << 62;

static uint64_t least(uint64_t a, uint64_t b) { return a < b ? a : b; }

// How many words of so many units have so many busy ones.
static size_t words(size_t units, size_t busy) {
    size_t count = 1;
    for (size_t k = 0; k < busy; k++)
        count = count * (units - k) / (k + 1);
    return count;
}

static void lay_out(struct matrix *m, size_t units) {
    size_t first = 0;
    m->levels = units + 1;
    m->bands = reserved(m->levels, sizeof(struct band));
    for (size_t l = 0; l < m->levels; l++) {
        const size_t rows = words(units, l);
        const size_t before = l > 0 ? words(units, l - 1) : 0;
        const size_t behind = l < units ? words(units, l + 1) : 0;
        const size_t width = before + rows + behind;
        m->bands[l] = (struct band){first, rows, first - before, width, reserved(rows * width, sizeof(struct ends))};
        for (size_t i = first; i < first + rows; i++)
            m->level[i] = l;
        first += rows;
    }
}

static struct ends *row_of(const struct matrix *m, size_t i) {
    const struct band *band = &m->bands[m->level[i]];
    return band->cells + (i - band->first) * band->width;
}

static int has_column(const struct band *band, size_t j) { return band->left <= j && j < band->left + band->width; }

static struct matrix packed(const struct chain *chain) {
    struct matrix m = {.states = chain->states};
    const uint64_t scale = WHOLE / chain->top;
    size_t units = 0;
    while ((size_t)1 << units < chain->states)
        units++;
    m.level = reserved(chain->states, sizeof(size_t));
    m.caps = reserved(chain->states, sizeof(uint64_t));
    lay_out(&m, units);
    for (size_t k = 0; k < chain->count; k++) {
        const struct rate *rate = &chain->rates[k];
        const struct band *band = &m.bands[m.level[rate->from]];
        const uint64_t scaled = scale * rate->rate;
        row_of(&m, rate->from)[rate->to - band->left] = (struct ends){scaled, scaled};
        m.caps[rate->from] += scaled;
    }
    return m;
}

static struct ends part_of(struct ends entry, wide all_lo, wide all_hi) {
    const wide low = all_hi - entry.hi + entry.lo;
    const wide high = all_lo - entry.lo + entry.hi;
    struct ends part = {0, 0};
    if (low != 0)
        part.lo = (uint64_t)((wide)WHOLE * entry.lo / low);
    if (high != 0)
        part.hi = (uint64_t)(((wide)WHOLE * entry.hi + high - 1) / high);
    return part;
}

static void fill_parts(const struct matrix *m, size_t state, struct ends *parts) {
    const struct band *band = &m->bands[m->level[state]];
    const struct ends *row = row_of(m, state);
    wide lo = 0, hi = 0;
    for (size_t j = band->left; j < state; j++) {
        lo += row[j - band->left].lo;
        hi += row[j - band->left].hi;
    }
    memset(parts, 0, state * sizeof(struct ends));
    for (size_t j = band->left; j < state; j++)
        parts[j] = part_of(row[j - band->left], lo, hi);
}

static void update_row(struct ends *row, size_t i, size_t state, size_t left, const struct ends *parts, uint64_t cap) {
    const struct ends into = row[state - left];
    if (into.hi == 0)
        return;
    for (size_t q = 0; q < state - left; q++) {
        const struct ends part = parts[left + q];
        if (left + q == i || part.hi == 0)
            continue;
        row[q].lo = least(row[q].lo + (uint64_t)((wide)into.lo * part.lo >> 62), cap);
        row[q].hi = least(row[q].hi + (uint64_t)(((wide)into.hi * part.hi + (WHOLE - 1)) >> 62), cap);
    }
}

static void update_rows(const struct matrix *m, size_t state, const struct ends *parts) {
    for (size_t l = 0; l < m->levels; l++) {
        const struct band *band = &m->bands[l];
        if (!has_column(band, state))
            continue;
        for (size_t r = 0; r < band->rows && band->first + r < state; r++)
            update_row(band->cells + r * band->width, band->first + r, state, band->left, parts, m->caps[band->first + r]);
    }
}

static uint64_t changed_by(const struct matrix *m, size_t state, const struct ends *parts) {
    uint64_t rows = 0, columns = 0, both = 0;
    for (size_t i = 0; i < state; i++) {
        const struct band *band = &m->bands[m->level[i]];
        const int leads = has_column(band, state) && row_of(m, i)[state - band->left].hi != 0;
        const int led = parts[i].hi != 0;
        rows += (uint64_t)leads;
        columns += (uint64_t)led;
        both += (uint64_t)(leads && led);
    }
    return rows * columns - both;
}

int main(void) {
    const struct chain chain = read_chain(stdin);
    const struct matrix m = packed(&chain);
    struct ends *parts = reserved(m.states, sizeof(struct ends));
    uint64_t changed = 0, spent = 0;
    for (size_t state = m.states - 1; state > 0; state--) {
        fill_parts(&m, state, parts);
        changed += changed_by(&m, state, parts);
        const uint64_t start = nanoseconds();
        update_rows(&m, state, parts);
        spent += nanoseconds() - start;
    }
    const struct ends left = row_of(&m, 0)[1];
    printf("%lu %lu %lu %lu\n", changed, spent, left.lo, left.hi);
    return 0;
}
