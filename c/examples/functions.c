/* functions MODULE: lists the functions of a module in a file, each with the texts of its operators. */
#include "wasm_operators.h"

#include <inttypes.h>
#include <stdio.h>
#include <stdlib.h>

/* Returns the bytes of a file, or null if it can't be read. */
static uint8_t *read_file(const char *path, size_t *length) {
  FILE *file = fopen(path, "rb");
  if (file == NULL) return NULL;
  size_t capacity = 65536;
  uint8_t *bytes = malloc(capacity);
  *length = 0;
  while (bytes != NULL) {
    *length += fread(bytes + *length, 1, capacity - *length, file);
    if (*length < capacity) break;
    uint8_t *more = realloc(bytes, capacity *= 2);
    if (more == NULL) free(bytes);
    bytes = more;
  }
  fclose(file);
  return bytes;
}

/* Prints the text of the operator at an offset of the module. */
static void print_text(const uint8_t *bytes, size_t length, uint64_t at) {
  uint8_t text[256];
  size_t text_length = 0;
  wasm_refusal refusal;
  if (wasm_operator_text(bytes, length, 0, WASM_FEATURES_ALL, at, text, sizeof text, &text_length, &refusal) == 0) {
    printf("  %" PRIu64 " %.*s\n", at, (int)text_length, (const char *)text);
  } else {
    printf("  %" PRIu64 " a text of %zu bytes\n", at, text_length);
  }
}

/* Prints a function: its index, its type, its name, and the texts of its operators. Returns the number of the error. */
static uint32_t print_function(const uint8_t *bytes, size_t length, const wasm_body *body) {
  uint8_t name[256];
  size_t name_length = 0;
  wasm_refusal refusal;
  if (wasm_function_name(bytes, length, body->index, name, sizeof name, &name_length, &refusal) != 0) name_length = 0;
  printf("%" PRIu32 " type %" PRIu32 " <%.*s>\n", body->index, body->type_index, (int)name_length, (const char *)name);

  size_t body_length = (size_t)body->length;
  wasm_operator *operators = malloc((body_length + 1) * sizeof *operators);
  if (operators == NULL) return WASM_REFUSED_OUT_OF_MEMORY;
  size_t count = 0;
  uint32_t refused = wasm_read_body(bytes + body->offset, body_length, body->offset, WASM_FEATURES_ALL, operators,
                                    body_length, &count, &refusal);
  for (size_t i = 0; i < count; i++) print_text(bytes, length, operators[i].offset);
  free(operators);
  if (refused != 0) fprintf(stderr, "error %" PRIu32 " at %" PRIu64 "\n", refused, refusal.offset);
  return refused;
}

int main(int argc, char **argv) {
  if (argc != 2 || wasm_operators_version() != WASM_OPERATORS_VERSION) {
    fprintf(stderr, "usage: functions MODULE\n");
    return 2;
  }
  size_t length = 0;
  uint8_t *bytes = read_file(argv[1], &length);
  if (bytes == NULL) {
    perror(argv[1]);
    return 2;
  }
  int status = 0;
  wasm_bodies bodies;
  wasm_body body;
  wasm_refusal refusal;
  uint32_t refused = wasm_open_bodies(bytes, length, &bodies, &refusal);
  while (refused == 0) {
    refused = wasm_next_body(bytes, length, &bodies, &body, &refusal);
    if (refused == 0 && print_function(bytes, length, &body) != 0) status = 1;
  }
  if (refused != WASM_REFUSED_NO_BODY) {
    fprintf(stderr, "error %" PRIu32 " at %" PRIu64 "\n", refused, refusal.offset);
    status = 1;
  }
  free(bytes);
  return status;
}
