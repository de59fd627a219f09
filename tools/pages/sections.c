/* Runs the block of docs/CALLERS.md that writes a body and a code section: tools/blocks.py. */
#include "wasm_operators.h"

int main(void) {
  const uint8_t operators[1] = {0x0b};
  size_t operators_length = sizeof operators;
  uint8_t body[16], section[16];
  wasm_refusal refusal;
  /* block */
  return body_length == 5 && section_length == 8 && section[0] == 0x0a && section[7] == 0x0b ? 0 : 1;
}
