/* count: counts the operators of the function body on standard input by proposal. */
#include "wasm_operators.h"

#include <inttypes.h>
#include <stdio.h>
#include <stdlib.h>

/* More than there are proposals. */
enum { PROPOSALS = 64 };

/* The longest body. */
static uint8_t body[1 << 20];

int main(void) {
  size_t length = fread(body, 1, sizeof body, stdin);

  /* The first call, with an empty array, returns the count. */
  wasm_operator none;
  size_t count = 0;
  wasm_refusal refusal;
  wasm_read_body(body, length, 0, WASM_FEATURES_ALL, &none, 0, &count, &refusal);
  wasm_operator *operators = malloc((count + 1) * sizeof *operators);
  if (operators == NULL) return 2;
  uint32_t refused = wasm_read_body(body, length, 0, WASM_FEATURES_ALL, operators, count, &count, &refusal);

  size_t counts[PROPOSALS] = {0};
  for (size_t i = 0; i < count; i++) {
    counts[wasm_operator_proposal(&operators[i])] += 1;
  }
  for (int i = 0; i < PROPOSALS; i++) {
    if (counts[i] != 0) printf("%s %zu\n", wasm_proposal_name(i), counts[i]);
  }
  free(operators);
  if (refused != 0) printf("refusal %" PRIu32 " at %" PRIu64 "\n", refused, refusal.offset);
  return refused != 0;
}
