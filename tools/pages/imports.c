/* Runs the block of docs/CALLERS.md that goes over the imports of a module, on a module with one: tools/blocks.py. */
#include "wasm_operators.h"

#include <inttypes.h>
#include <stdio.h>

int main(void) {
  const uint8_t bytes[] = {
    0x00, 0x61, 0x73, 0x6d, 0x01, 0x00, 0x00, 0x00, 0x01, 0x04, 0x01, 0x60, 0x00, 0x00, /* a type */
    0x02, 0x07, 0x01, 0x01, 0x6d, 0x01, 0x66, 0x00, 0x00                                /* an import */
  };
  const size_t length = sizeof bytes;
  /* block */
  return refusal.number == WASM_REFUSED_NO_ITEM && import.ty.kind == WASM_EXTERNAL_FUNC ? 0 : 1;
}
