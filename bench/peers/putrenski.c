/* For run.py: this library on the files that are named. Prints the speed there and back on the first, and what comes back of each other. */
#include "putrenski.h"

#include <stdio.h>
#include <stdlib.h>
#include <time.h>

enum { TURNS = 60, ROOM = 1 << 19 };
static uint8_t text[ROOM], jcal[ROOM], back[ROOM];

typedef size_t (*conversion)(const uint8_t *, size_t, const uint8_t *, size_t, uint8_t *, size_t);

static int earlier(const void *a, const void *b) { return *(const double *)a < *(const double *)b ? -1 : 1; }

/* MB/s, by the median. */
static double speed(conversion f, const uint8_t *s, size_t n, uint8_t *out) {
    double times[TURNS];
    for (int i = 0; i < TURNS; i++) {
        struct timespec a, b;
        clock_gettime(CLOCK_MONOTONIC, &a);
        f(s, n, s, 0, out, ROOM);
        clock_gettime(CLOCK_MONOTONIC, &b);
        times[i] = (b.tv_sec - a.tv_sec) * 1e9 + (b.tv_nsec - a.tv_nsec);
    }
    qsort(times, TURNS, sizeof times[0], earlier);
    return n * 1e3 / times[TURNS / 2];
}

static size_t load(const char *path) {
    FILE *f = fopen(path, "rb");
    size_t n = f ? fread(text, 1, ROOM, f) : 0;
    if (f) fclose(f);
    return n;
}

/* What comes back of a text, or the number that refuses it. */
static void answer(const char *path) {
    size_t m = putrenski_to_jcal(text, load(path), text, 0, jcal, ROOM);
    if (putrenski_refusal(m)) {
        printf("refused %d%c", putrenski_refusal(m), 0);
        return;
    }
    fwrite(back, 1, putrenski_to_ical(jcal, m, text, 0, back, ROOM), stdout);
    putchar(0);
}

int main(int count, char **paths) {
    size_t n = load(paths[1]);
    size_t m = putrenski_to_jcal(text, n, text, 0, jcal, ROOM);
    if (putrenski_refusal(m) || putrenski_refusal(putrenski_to_ical(jcal, m, text, 0, back, ROOM))) return 1;
    printf("%.1f ", speed(putrenski_to_jcal, text, n, jcal));
    printf("%.1f\n", speed(putrenski_to_ical, jcal, m, back));
    for (int i = 2; i < count; i++) answer(paths[i]);
}
