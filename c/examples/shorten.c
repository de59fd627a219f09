/* shorten BODY: writes the function body in a file with the shortest encodings of its locals and operators, and prints the
 * bytes in hexadecimal. Linkers pad numbers that they patch. */
#include "wasm_operators.h"

#include <inttypes.h>
#include <stdio.h>
#include <stdlib.h>

enum { LONGEST_BODY = 65536 };

static uint8_t bytes[LONGEST_BODY];
static uint8_t written[LONGEST_BODY];
static wasm_operator operators[LONGEST_BODY];
static wasm_locals locals[LONGEST_BODY];

static int fail(const wasm_refusal *refusal) {
  fprintf(stderr, "error %" PRIu32 " at %" PRIu64 "\n", refusal->number, refusal->offset);
  return 1;
}

int main(int argc, char **argv) {
  FILE *file = argc == 2 ? fopen(argv[1], "rb") : NULL;
  if (file == NULL || wasm_operators_version() != WASM_OPERATORS_VERSION) {
    fprintf(stderr, "usage: shorten BODY\n");
    return 2;
  }
  size_t length = fread(bytes, 1, sizeof bytes, file);
  fclose(file);

  size_t count = 0;
  wasm_refusal refusal;
  if (wasm_read_body(bytes, length, 0, WASM_FEATURES_ALL, operators, LONGEST_BODY, &count, &refusal) != 0) return fail(&refusal);

  /* The locals: how many declarations, and each of them. */
  wasm_reader reader = {0, 0, 0, WASM_FEATURES_ALL, 0};
  wasm_value value;
  if (wasm_read_value(bytes, length, &reader, WASM_VALUE_VAR_U32, 0, &value, &refusal) != 0) return fail(&refusal);
  size_t declarations = (size_t)value.number, end = 0;
  for (size_t i = 0; i < declarations; i++) {
    if (wasm_read_value(bytes, length, &reader, WASM_VALUE_LOCAL, 0, &value, &refusal) != 0) return fail(&refusal);
    locals[i].count = (uint32_t)value.number;
    locals[i].ty.kind = value.kind;
    locals[i].ty.index = value.index;
  }
  if (wasm_encode_locals(locals, declarations, written, sizeof written, &end, &refusal) != 0) return fail(&refusal);
  for (size_t i = 0; i < count; i++) {
    size_t more = 0;
    if (wasm_encode_operator(&operators[i], bytes, length, 0, WASM_FEATURES_ALL, written + end, sizeof written - end, &more,
                             &refusal) != 0) {
      return fail(&refusal);
    }
    end += more;
  }
  for (size_t i = 0; i < end; i++) printf("%02x", written[i]);
  printf("\n");
  return 0;
}
