/* Runs the block of docs/CALLERS.md that reads the targets of a br_table, on a body with one: tools/blocks.py. */
#include "wasm_operators.h"

int main(void) {
  const uint8_t bytes[] = {0x00, 0x41, 0x00, 0x0e, 0x02, 0x00, 0x00, 0x00, 0x0b};
  const size_t length = sizeof bytes;
  wasm_operator operators[sizeof bytes];
  size_t count = 0;
  wasm_refusal refusal;
  if (wasm_read_body(bytes, length, 0, WASM_FEATURES_ALL, operators, length, &count, &refusal) != 0) return 1;
  const wasm_operator *op = &operators[1];
  if (count != 3 || op->shape != WASM_SHAPE_BRANCH_TABLE) return 2;
  /* block */
  return all == 2 && targets[0] == 0 && targets[1] == 0 ? 0 : 3;
}
