/* A plain decoder that works check row after check row, to compare times with: the same numbers, no vectors by hand.
   stdin: base rows, base columns, lifting size, iterations, rounds, and then the entries, row by row. It decodes values that no
   codeword is near to, and prints the nanoseconds of an edge in one iteration (the least of the rounds) and a sum. */
#define _POSIX_C_SOURCE 199309L
#include <stdint.h>
#include <stdio.h>
#include <stdlib.h>
#include <string.h>
#include <time.h>

struct block {
    int column, shift;
};

static struct block layers[16][128];
static int degrees[16];
static int16_t p[128 * 1024];
static int8_t r[16 * 128 * 1024];

static double now(void)
{
    struct timespec t;
    clock_gettime(CLOCK_MONOTONIC, &t);
    return t.tv_sec * 1e9 + t.tv_nsec;
}

static int clamped(int x)
{
    return x > 127 ? 127 : x < -127 ? -127 : x;
}

static void work_row(const struct block *layer, int degree, int z, int t, int8_t *edges)
{
    int given[128], variables[128];
    int least = 127, second = 127, negative = 0;
    for (int e = 0; e < degree; e++) {
        int turned = t + layer[e].shift;
        variables[e] = layer[e].column * z + (turned < z ? turned : turned - z);
        given[e] = clamped(p[variables[e]] - edges[e * z + t]);
        int magnitude = abs(given[e]);
        if (magnitude < least) {
            second = least;
            least = magnitude;
        } else if (magnitude < second) {
            second = magnitude;
        }
        negative ^= given[e] < 0;
    }
    for (int e = 0; e < degree; e++) {
        int told = 3 * (abs(given[e]) == least ? second : least) / 4;
        if ((given[e] < 0) != negative)
            told = -told;
        p[variables[e]] = given[e] + told;
        edges[e * z + t] = told;
    }
}

int main(void)
{
    int mb, nb, z, iterations, rounds, count = 0;
    if (scanf("%d %d %d %d %d", &mb, &nb, &z, &iterations, &rounds) != 5)
        return 2;
    for (int i = 0; i < mb; i++)
        for (int j = 0; j < nb; j++) {
            int entry;
            if (scanf("%d", &entry) != 1)
                return 2;
            if (entry >= 0)
                layers[i][degrees[i]++] = (struct block){ j, entry }, count++;
        }
    double best = 1e300;
    for (int round = 0; round < rounds; round++) {
        uint64_t noise = 7;
        for (int v = 0; v < nb * z; v++) {
            noise = noise * 6364136223846793005u + 1442695040888963407u;
            p[v] = (int)((noise >> 33) % 64) - 20;
        }
        memset(r, 0, sizeof r);
        double start = now();
        for (int n = 0; n < iterations; n++) {
            int8_t *edges = r;
            for (int i = 0; i < mb; edges += degrees[i++] * z)
                for (int t = 0; t < z; t++)
                    work_row(layers[i], degrees[i], z, t, edges);
        }
        double took = now() - start;
        if (took < best)
            best = took;
    }
    long sum = 0;
    for (int v = 0; v < nb * z; v++)
        sum = sum * 31 + p[v];
    printf("%.4f %ld\n", best / iterations / count / z, sum);
    return 0;
}
