#include <stdint.h>
#include <wasm_simd128.h>

void scale(float *restrict out, const float *restrict in, float by, int n) {
    for (int k = 0; k < n; k++) out[k] = in[k] * by + 1.5f;
}
uint32_t sum(const uint8_t *bytes, int n) {
    uint32_t all = 0;
    for (int k = 0; k < n; k++) all += bytes[k];
    return all;
}
void mix(int16_t *restrict out, const int16_t *restrict a, const int16_t *restrict b, int n) {
    for (int k = 0; k < n; k++) out[k] = (a[k] > b[k] ? a[k] - b[k] : b[k]) >> 2;
}
v128_t shuffled(v128_t a, v128_t b) {
    v128_t c = wasm_i8x16_shuffle(a, b, 0, 17, 2, 19, 4, 21, 6, 23, 8, 25, 10, 27, 12, 29, 14, 31);
    c = wasm_i32x4_replace_lane(c, 3, wasm_i32x4_extract_lane(b, 1));
    c = wasm_v128_load8_lane(&a, c, 7);
    return wasm_i16x8_add_sat(wasm_i16x8_extmul_low_i8x16(a, c), wasm_i32x4_const(1, -2, 3, -4));
}
v128_t masked(v128_t a, v128_t b, v128_t mask) {
    return wasm_v128_bitselect(wasm_f64x2_max(a, b), wasm_i64x2_shr(a, 3), wasm_i8x16_swizzle(mask, b));
}
