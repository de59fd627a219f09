/* validate: checks the module on standard input, and prints its first error. */
#include "wasm_operators.h"

#include <inttypes.h>
#include <stdio.h>
#include <stdlib.h>

int main(void) {
  size_t length = 0, capacity = 65536, read = 0;
  uint8_t *bytes = malloc(capacity);
  while (bytes != NULL && (read = fread(bytes + length, 1, capacity - length, stdin)) > 0) {
    length += read;
    if (length == capacity) {
      uint8_t *more = realloc(bytes, capacity *= 2);
      if (more == NULL) free(bytes);
      bytes = more;
    }
  }
  if (bytes == NULL || ferror(stdin) || wasm_operators_version() != WASM_OPERATORS_VERSION) return 3;
  uint8_t message[256];
  size_t message_length = 0;
  uint64_t function = WASM_NO_FUNCTION;
  wasm_refusal refusal;
  uint32_t refused = wasm_validate_module(bytes, length, WASM_FEATURES_ALL, &function, message, sizeof message,
                                          &message_length, &refusal);
  free(bytes);
  if (refused == 0) return 0;
  if (message_length > sizeof message) message_length = sizeof message;
  printf("error at 0x%" PRIx64, refusal.offset);
  if (function != WASM_NO_FUNCTION) printf(" (function %" PRIu64 ")", function);
  printf(": %.*s\n", (int)message_length, (const char *)message);
  return 1;
}
