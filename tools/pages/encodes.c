/* Runs the block of docs/CALLERS.md that writes an operator: tools/blocks.py. */
#include "wasm_operators.h"

int main(void) {
  const uint8_t bytes[1] = {0};
  /* block */
  return refused == 0 && length == 2 && out[0] == 0x41 && out[1] == 0x05 ? 0 : 1;
}
