/* list BODY: lists the operators of the function body in a file, each with its offset and name. */
#include "wasm_operators.h"

#include <inttypes.h>
#include <stdio.h>
#include <stdlib.h>

/* Returns the bytes of a file, or null if it can't be read. */
static uint8_t *read_file(const char *path, size_t *length) {
  FILE *file = fopen(path, "rb");
  if (file == NULL) return NULL;
  size_t room = 65536;
  uint8_t *bytes = malloc(room);
  *length = 0;
  while (bytes != NULL) {
    *length += fread(bytes + *length, 1, room - *length, file);
    if (*length < room) break;
    uint8_t *more = realloc(bytes, room *= 2);
    if (more == NULL) free(bytes);
    bytes = more;
  }
  fclose(file);
  return bytes;
}

int main(int argc, char **argv) {
  if (argc != 2 || wasm_operators_version() != WASM_OPERATORS_VERSION) {
    fprintf(stderr, "usage: list BODY\n");
    return 2;
  }
  size_t length = 0;
  uint8_t *bytes = read_file(argv[1], &length);
  if (bytes == NULL) {
    perror(argv[1]);
    return 2;
  }

  /* An operator has at least one byte. */
  wasm_operator *operators = malloc((length + 1) * sizeof *operators);
  if (operators == NULL) return 2;
  size_t count = 0;
  wasm_refusal refusal;
  uint32_t refused = wasm_read_body(bytes, length, 0, WASM_FEATURES_ALL, operators, length, &count, &refusal);

  for (size_t i = 0; i < count; i++) {
    uint8_t name[WASM_LONGEST_NAME];
    size_t written = wasm_operator_name(&operators[i], name, sizeof name);
    printf("%" PRIu64 " %.*s\n", operators[i].offset, (int)written, (const char *)name);
  }
  if (refused != 0) {
    uint8_t text[128];
    size_t written = wasm_refusal_text(&refusal, text, sizeof text);
    if (written > sizeof text) written = sizeof text;
    fprintf(stderr, "error at %" PRIu64 ": %.*s\n", refusal.offset, (int)written, (const char *)text);
  }
  free(operators);
  free(bytes);
  return refused != 0;
}
