// A peer of the program ride_bench: the same least pairings of the same grids by the same method, shortest augmenting
// paths over reduced costs, in C over the same cells of 8 bytes.
//
//   gcc -O2 -o assignment bench/assignment.c -lm
//   ./assignment
#include <stdint.h>
#include <stdio.h>
#include <stdlib.h>
#include <string.h>
#include <time.h>

#define NOTHING UINT64_MAX
#define NONE UINT32_MAX

static const uint64_t penalty = 1000000000000ull;

struct grid {
    uint32_t rows, columns;
    uint64_t *cells;
};

struct search {
    uint64_t *distances;
    uint32_t *sources, *ranks;
};

static double now(void) {
    struct timespec t;
    clock_gettime(CLOCK_MONOTONIC, &t);
    return t.tv_sec * 1e3 + t.tv_nsec / 1e6;
}

// A number that depends on both, as evenly spread as a draw.
static uint32_t mix(uint32_t a, uint32_t b) {
    uint32_t x = (a * 2654435761u) ^ (b * 2246822519u);
    x ^= x >> 15;
    x *= 2654435761u;
    return x ^ (x >> 13);
}

static struct grid generate(uint32_t rows, uint32_t columns, int product) {
    struct grid grid = {rows, columns, malloc((size_t)rows * columns * 8)};
    for (uint32_t r = 0; r < rows; r++)
        for (uint32_t c = 0; c < columns; c++)
            grid.cells[(size_t)r * columns + c] =
                product ? (uint64_t)(r + 1) * (c + 1) : mix(r + 1, c + 1) % 1000000;
    return grid;
}

// Shortens the ways to all columns by a row, and finds the nearest open one below a limit.
static uint32_t relax(const uint64_t *cells, const uint64_t *pays, struct search *s, uint32_t columns, uint32_t row,
                      uint64_t base, uint64_t price, uint64_t limit) {
    uint32_t nearest = NONE;
    for (uint32_t c = 0; c < columns; c++) {
        uint64_t distance = s->distances[c];
        if (cells[c] != NOTHING) {
            uint64_t by = base + cells[c] + pays[c] - price;
            if (by < distance) {
                s->distances[c] = distance = by;
                s->sources[c] = row;
            }
        }
        if (distance < limit && s->ranks[c] == 0) {
            limit = distance;
            nearest = c;
        }
    }
    return nearest;
}

static uint64_t solve(const struct grid *grid) {
    uint32_t rows = grid->rows, columns = grid->columns;
    uint64_t *prices = calloc(rows, 8), *pays = calloc(columns, 8);
    uint32_t *column_of = malloc(rows * 4), *row_of = malloc(columns * 4);
    struct search s = {malloc(columns * 8), malloc(columns * 4), malloc(columns * 4)};
    memset(column_of, 255, rows * 4);
    memset(row_of, 255, columns * 4);
    for (uint32_t root = 0; root < rows; root++) {
        for (uint32_t c = 0; c < columns; c++) s.distances[c] = penalty;
        memset(s.ranks, 0, columns * 4);
        uint32_t row = root, steps = 0, leaver = root, column;
        uint64_t base = 0, leave = penalty - prices[root], far;
        for (;;) {
            column = relax(grid->cells + (size_t)row * columns, pays, &s, columns, row, base, prices[row], leave);
            if (column == NONE) {
                far = leave;
                break;
            }
            s.ranks[column] = ++steps;
            base = s.distances[column];
            if (row_of[column] == NONE) {
                far = base;
                break;
            }
            row = row_of[column];
            if (base + penalty - prices[row] < leave) {
                leave = base + penalty - prices[row];
                leaver = row;
            }
        }
        for (uint32_t c = 0; c < columns; c++)
            if (s.ranks[c]) {
                pays[c] += far - s.distances[c];
                if (row_of[c] != NONE) prices[row_of[c]] += far - s.distances[c];
            }
        prices[root] += far;
        if (column == NONE) {
            column = column_of[leaver];
            column_of[leaver] = NONE;
        }
        while (column != NONE) {
            uint32_t source = s.sources[column], had = column_of[source];
            column_of[source] = column;
            row_of[column] = source;
            column = had;
        }
    }
    uint64_t cost = 0;
    for (uint32_t r = 0; r < rows; r++)
        cost += column_of[r] == NONE ? penalty : grid->cells[(size_t)r * columns + column_of[r]];
    free(prices), free(pays), free(column_of), free(row_of), free(s.distances), free(s.sources), free(s.ranks);
    return cost;
}

static void bench(const char *name, uint32_t rows, uint32_t columns, int product) {
    struct grid grid = generate(rows, columns, product);
    double best = 1e9;
    uint64_t cost = 0;
    for (int turn = 0; turn < 20; turn++) {
        double start = now();
        cost = solve(&grid);
        double took = now() - start;
        if (took < best) best = took;
    }
    printf("%s %u x %u cost %llu best %.0f microseconds\n", name, rows, columns, (unsigned long long)cost, best * 1e3);
    free(grid.cells);
}

int main(void) {
    bench("random", 128, 1000, 0);
    bench("random", 128, 8000, 0);
    bench("product", 128, 1000, 1);
}
