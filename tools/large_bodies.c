/* Visits a large body by the library of crates/wasm_bench, and prints the number of operators:
   large_bodies nested|alternating|nops N. */
#include <stdint.h>
#include <stdio.h>
#include <stdlib.h>
#include <string.h>

uint64_t wasm_bench_count_any(const uint8_t *body, size_t size);

/* A body without locals: `before` n times, `after` n times, and an end. */
static uint8_t *body_of(size_t n, const char *before, size_t each, const char *after, size_t other, size_t *size) {
    *size = 1 + n * (each + other) + 1;
    uint8_t *body = calloc(*size, 1), *at = body + 1;
    if (!body) exit(1);
    for (size_t i = 0; i < n; i++, at += each) memcpy(at, before, each);
    for (size_t i = 0; i < n; i++, at += other) memcpy(at, after, other);
    *at = 0x0b;
    return body;
}

int main(int count, char **words) {
    if (count != 3) return 2;
    size_t n = strtoull(words[2], 0, 10), size;
    uint8_t *body;
    if (!strcmp(words[1], "nested")) body = body_of(n, "\x02\x40", 2, "\x0b", 1, &size);
    else if (!strcmp(words[1], "alternating")) body = body_of(n, "\x02\x40\x0b", 3, "", 0, &size);
    else if (!strcmp(words[1], "nops")) body = body_of(n, "\x01", 1, "", 0, &size);
    else return 2;
    printf("%llu\n", (unsigned long long)wasm_bench_count_any(body, size));
    return 0;
}
