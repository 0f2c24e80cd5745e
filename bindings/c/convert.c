/* Turns iCalendar on standard input into jCal, by the static library. */
#include "putrenski.h"

#include <stdio.h>

int main(void) {
    static uint8_t text[65537], out[65536];
    size_t n = fread(text, 1, sizeof text, stdin);
    size_t length = putrenski_to_jcal(text, n, text, 0, out, sizeof out);
    int refusal = putrenski_refusal(length);
    if (refusal != 0) {
        printf("refused %d\n", refusal);
        return 1;
    }
    fwrite(out, 1, length, stdout);
    return 0;
}
