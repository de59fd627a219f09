#include <stdatomic.h>
#include <stdint.h>

static _Atomic uint32_t count;
static _Atomic uint64_t large;
static _Atomic uint8_t small;

uint32_t take(uint32_t n) { return atomic_fetch_add(&count, n) ^ atomic_exchange(&small, (uint8_t)n); }
_Bool claim(uint64_t was, uint64_t is) { return atomic_compare_exchange_strong(&large, &was, is); }
void fence(void) { atomic_thread_fence(memory_order_seq_cst); }
int wait(int *at, int value) { return __builtin_wasm_memory_atomic_wait32(at, value, -1); }
unsigned wake(int *at) { return __builtin_wasm_memory_atomic_notify(at, 1); }
void copy(char *to, const char *from, unsigned long n) { __builtin_memcpy(to, from, n); }
