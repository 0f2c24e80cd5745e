/* The library for other languages: build it with `rt lib` in crates/ffi, link crates/ffi/out/libffi.a.
 * Every function takes any octets; none keeps a pointer, allocates or fails to return. Slices are a pointer and a length. */
#ifndef PUTRENSKI_H
#define PUTRENSKI_H

#include <stddef.h>
#include <stdint.h>

/* Turn an iCalendar text into jCal, and jCal into iCalendar. `rows` is the content of a rows.hex, of length 0 where there is none.
 * The result is the length of the text, which lies at the front of `out`, with the octets behind it unchanged;
 * or, for refusal N, SIZE_MAX - N, with all of `out` zero. A text that is longer than `out` is refusal 10. */
size_t putrenski_to_jcal(const uint8_t *text, size_t text_length, const uint8_t *rows, size_t rows_length, uint8_t *out, size_t out_length);
size_t putrenski_to_ical(const uint8_t *text, size_t text_length, const uint8_t *rows, size_t rows_length, uint8_t *out, size_t out_length);

/* The number of a refusal, 1 to 15; 0 where the text was written. */
static inline int putrenski_refusal(size_t result) { return result > SIZE_MAX - 16 ? (int)(SIZE_MAX - result) : 0; }

/* Write what `stops` prints for a start, a rule and the most stops, a line each. The result is the length of it;
 * out_length + 1 where it does not fit: 2,715 octets always do. */
size_t putrenski_stops(const uint8_t *text, size_t text_length, uint8_t *out, size_t out_length);

/* Write the stops of a start and a rule, at most `most`: a line `stops` with their count and a line for each, its number and its moment;
 * or a line `refused` with the number of a refusal. The result is as that of putrenski_stops: 27 + 42 * most octets always hold it. */
size_t putrenski_list(const uint8_t *start, size_t start_length, const uint8_t *rule, size_t rule_length, size_t most, uint8_t *out, size_t out_length);

#endif
