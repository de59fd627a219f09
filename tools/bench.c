/* Runs each function of crates/wasm_bench over encodings that are made here, and prints the best time of some rounds
   in nanoseconds per call. The sum that a function returns is compared with the sum of what was encoded. */
#include <stdint.h>
#include <stdio.h>
#include <stdlib.h>
#include <time.h>

typedef uint64_t reader(const uint8_t *bytes, size_t count);
reader wasm_bench_u8, wasm_bench_u32, wasm_bench_i32, wasm_bench_i64;
reader wasm_bench_memarg, wasm_bench_block, wasm_bench_br_table;

enum { CALLS = 200000 };
static uint8_t bytes[CALLS * 16];
static size_t count;

static void put(unsigned byte) { bytes[count++] = (uint8_t)byte; }

static void put_unsigned(uint64_t n) {
    for (; n >= 128; n >>= 7) put((n & 127) | 128);
    put((unsigned)n);
}

static void put_signed(int64_t n) {
    for (; n < -64 || n > 63; n >>= 7) put((unsigned)(n & 127) | 128);
    put((unsigned)(n & 127));
}

/* Each of these encodes the i-th value, and returns what it adds to the sum. */
static uint64_t byte(uint64_t i) { put(i & 255); return i & 255; }
static uint64_t unsigned_1(uint64_t i) { put_unsigned(i % 128); return i % 128; }
static uint64_t unsigned_2(uint64_t i) { put_unsigned(128 + i % 1000); return 128 + i % 1000; }
static uint64_t unsigned_5(uint64_t i) { put_unsigned(0xf0000000u + i); return 0xf0000000u + i; }
static uint64_t unsigned_mixed(uint64_t i) {
    uint64_t n = (i * 2654435761u >> 20 & 3) == 0 ? 300 : 5;
    put_unsigned(n);
    return n;
}
static uint64_t as_32(int64_t n) { put_signed(n); return (uint32_t)n; }
static uint64_t as_64(int64_t n) { put_signed(n); return (uint64_t)n; }
static uint64_t signed_1(uint64_t i) { return as_32((int64_t)(i % 128) - 64); }
static uint64_t signed_2(uint64_t i) { return as_32(100 + (int64_t)(i % 1000)); }
static uint64_t signed_5(uint64_t i) { return as_32(-0x70000000LL + (int64_t)i); }
static uint64_t wide_1(uint64_t i) { return as_64((int64_t)(i % 128) - 64); }
static uint64_t wide_3(uint64_t i) { return as_64(-60000 - (int64_t)(i % 1000)); }
static uint64_t wide_10(uint64_t i) { return as_64(INT64_MIN + (int64_t)i); }
static uint64_t argument_1(uint64_t i) { put(2); put_unsigned(i % 128); return 2 + i % 128; }
static uint64_t argument_2(uint64_t i) { put(2); put_unsigned(128 + i % 1000); return 2 + 128 + i % 1000; }
static uint64_t argument_index(uint64_t i) { put(0x42); put(1); put_unsigned(i % 128); return 2 + i % 128; }
static uint64_t empty(uint64_t i) { (void)i; put(0x40); return 1; }
static uint64_t value(uint64_t i) { (void)i; put(0x7f); return 2; }
static uint64_t mixed_type(uint64_t i) { return (i * 2654435761u >> 20 & 3) == 0 ? (put(0x7e), 2) : (put(0x40), 1); }
static uint64_t function_type(uint64_t i) { put(i % 64); return i % 64; }
static uint64_t table_short(uint64_t i) {
    put(4);
    for (uint64_t k = 0; k < 5; k++) put((i + k) % 128);
    return 4 + (i + 4) % 128;
}
static uint64_t table_long(uint64_t i) {
    put(4);
    for (uint64_t k = 0; k < 5; k++) put_unsigned(300 + i % 1000 + k);
    return 4 + 300 + i % 1000 + 4;
}

static const struct {
    const char *name;
    reader *read;
    uint64_t (*encode)(uint64_t);
} rows[] = {
    {"byte", wasm_bench_u8, byte},
    {"u32, 1 byte", wasm_bench_u32, unsigned_1},
    {"u32, 2 bytes", wasm_bench_u32, unsigned_2},
    {"u32, 5 bytes", wasm_bench_u32, unsigned_5},
    {"u32, 1 or 2 bytes", wasm_bench_u32, unsigned_mixed},
    {"i32, 1 byte", wasm_bench_i32, signed_1},
    {"i32, 2 bytes", wasm_bench_i32, signed_2},
    {"i32, 5 bytes", wasm_bench_i32, signed_5},
    {"i64, 1 byte", wasm_bench_i64, wide_1},
    {"i64, 3 bytes", wasm_bench_i64, wide_3},
    {"i64, 10 bytes", wasm_bench_i64, wide_10},
    {"memory argument, offset of 1 byte", wasm_bench_memarg, argument_1},
    {"memory argument, offset of 2 bytes", wasm_bench_memarg, argument_2},
    {"memory argument with an index", wasm_bench_memarg, argument_index},
    {"block type, empty", wasm_bench_block, empty},
    {"block type, i32", wasm_bench_block, value},
    {"block type, empty or i64", wasm_bench_block, mixed_type},
    {"block type, index", wasm_bench_block, function_type},
    {"branch table, 5 targets of 1 byte", wasm_bench_br_table, table_short},
    {"branch table, 5 targets of 2 bytes", wasm_bench_br_table, table_long},
};

static double now(void) {
    struct timespec t;
    clock_gettime(CLOCK_MONOTONIC, &t);
    return (double)t.tv_sec * 1e9 + (double)t.tv_nsec;
}

int main(int argc, char **argv) {
    int rounds = argc > 1 ? atoi(argv[1]) : 60, wrong = 0;
    printf("%-36s %9s\n", "best of the rounds", "ns a call");
    for (size_t r = 0; r < sizeof rows / sizeof *rows; r++) {
        uint64_t sum = 0, answer = 0;
        double best = 1e18;
        count = 0;
        for (uint64_t i = 0; i < CALLS; i++) sum += rows[r].encode(i);
        for (int k = 0; k < rounds; k++) {
            double start = now();
            answer = rows[r].read(bytes, count);
            double took = now() - start;
            if (took < best) best = took;
        }
        wrong += answer != sum;
        printf("%-36s %9.3f%s\n", rows[r].name, best / CALLS, answer == sum ? "" : " WRONG");
    }
    return wrong != 0;
}
