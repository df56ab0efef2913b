// The peer of ride_bench's reading of a map: reads a .gr file line by line with the same checks, into an array of arcs.
//
//   gcc -O2 -o read_map bench/read_map.c
//   ./read_map FILE
#include <stdint.h>
#include <stdio.h>
#include <stdlib.h>
#include <time.h>

struct arc {
    uint32_t tail, head, seconds;
};

static double now(void) {
    struct timespec t;
    clock_gettime(CLOCK_MONOTONIC, &t);
    return t.tv_sec * 1e3 + t.tv_nsec / 1e6;
}

static const char *blanks(const char *at) {
    while (*at == ' ' || *at == '\t') at++;
    return at;
}

// Reads a number of 1 to 18 digits, and gives NULL where there is none.
static const char *number(const char *at, uint64_t *value) {
    at = blanks(at);
    const char *start = at;
    uint64_t n = 0;
    while (*at >= '0' && *at <= '9' && at - start < 18) n = n * 10 + (uint64_t)(*at++ - '0');
    *value = n;
    return at == start || (*at != ' ' && *at != '\t' && *at != '\r' && *at != '\n') ? NULL : at;
}

int main(int argc, char **argv) {
    double start = now();
    FILE *file = argc > 1 ? fopen(argv[1], "r") : NULL;
    if (!file) return 1;
    char line[1024];
    uint64_t nodes = 0, said = 0, found = 0, sum = 0;
    struct arc *arcs = NULL;
    while (fgets(line, sizeof line, file)) {
        const char *at = blanks(line);
        uint64_t a, b, c;
        if (*at == 'c' || *at == '\n' || *at == '\r') continue;
        if (*at == 'p') {
            if (!(at = number(at + 4, &nodes)) || !(at = number(at, &said)) || nodes > 500000 || said > 2000000) return 1;
            arcs = malloc(said * sizeof *arcs);
        } else if (*at == 'a') {
            if (!(at = number(at + 1, &a)) || !(at = number(at, &b)) || !(at = number(at, &c))) return 1;
            if (a == 0 || a > nodes || b == 0 || b > nodes || c > 1000000000 || found == said) return 1;
            arcs[found++] = (struct arc){(uint32_t)a, (uint32_t)b, (uint32_t)c};
        } else {
            return 1;
        }
    }
    double stop = now();
    for (uint64_t i = 0; i < found; i++) sum += arcs[i].seconds;
    printf("nodes %llu arcs %llu sum %llu\n", (unsigned long long)nodes, (unsigned long long)found, (unsigned long long)sum);
    printf("%.1f milliseconds\n", stop - start);
    return found != said;
}
