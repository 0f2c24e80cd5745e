/* For run.py: libical on the files that are named. Prints the speed of reading and of writing the first, and what comes back of each other. */
#include <libical/ical.h>
#include <stdio.h>
#include <stdlib.h>
#include <time.h>

enum { TURNS = 60, ROOM = 1 << 19 };
static char text[ROOM];

static int earlier(const void *a, const void *b) { return *(const double *)a < *(const double *)b ? -1 : 1; }

static double now(void) {
    struct timespec t;
    clock_gettime(CLOCK_MONOTONIC, &t);
    return t.tv_sec * 1e9 + t.tv_nsec;
}

static size_t load(const char *path) {
    FILE *f = fopen(path, "rb");
    size_t n = f ? fread(text, 1, ROOM - 1, f) : 0;
    if (f) fclose(f);
    text[n] = 0;
    return n;
}

int main(int count, char **paths) {
    size_t n = load(paths[1]);
    double reads[TURNS], writes[TURNS];
    for (int i = 0; i < TURNS; i++) {
        double a = now();
        icalcomponent *c = icalparser_parse_string(text);
        double b = now();
        char *s = icalcomponent_as_ical_string_r(c);
        double e = now();
        reads[i] = b - a;
        writes[i] = e - b;
        free(s);
        icalcomponent_free(c);
    }
    qsort(reads, TURNS, sizeof reads[0], earlier);
    qsort(writes, TURNS, sizeof writes[0], earlier);
    printf("%.1f %.1f\n", n * 1e3 / reads[TURNS / 2], n * 1e3 / writes[TURNS / 2]);
    for (int i = 2; i < count; i++) {
        load(paths[i]);
        icalcomponent *c = icalparser_parse_string(text);
        printf("%s%c", c ? icalcomponent_as_ical_string(c) : "refused", 0);
    }
}
