/* rows ROWS: calls the library on the rows of crates/wasm_tests_c/stdin, and compares the results.
 *
 * tools/c_answers.py describes the rows. Bodies are read by wasm_next_plain, as constant expressions and as locals; lists
 * are left to replay.c. The code sections of modules are written again. The last line counts rows and differences; with differences the status is 1. */
#include "wasm_operators.h"

#include <inttypes.h>
#include <stdarg.h>
#include <stdio.h>
#include <stdlib.h>
#include <string.h>

enum { CELLS = 9, LONGEST_TEXT = 4096, DECLARATIONS = 16 };

static size_t rows, differ;

/* A text that grows, of at most LONGEST_TEXT bytes. */
typedef struct text {
  char bytes[LONGEST_TEXT];
  size_t length;
} text;

static void add(text *out, const char *format, ...) {
  va_list values;
  va_start(values, format);
  int length = vsnprintf(out->bytes + out->length, sizeof out->bytes - out->length, format, values);
  va_end(values);
  if (length < 0 || (size_t)length >= sizeof out->bytes - out->length) exit(2);
  out->length += (size_t)length;
}

/* Compares a result with the expected one, and prints the first that differ. */
static void compare(const char *call, const text *found, const char *expected) {
  rows++;
  if (strcmp(found->bytes, expected) == 0) return;
  if (differ++ < 10) printf("%s: %s, and not %s\n", call, found->bytes, expected);
}

/* Returns the bytes of a hexadecimal text. */
static uint8_t *bytes_of(const char *hex, size_t *length) {
  *length = strlen(hex) / 2;
  uint8_t *bytes = malloc(*length + 1);
  if (bytes == NULL) exit(2);
  for (size_t i = 0; i < *length; i++) {
    unsigned byte = 0;
    if (sscanf(hex + 2 * i, "%2x", &byte) != 1) exit(2);
    bytes[i] = (uint8_t)byte;
  }
  return bytes;
}

static void add_error(text *out, const wasm_refusal *refusal) {
  add(out, "E%" PRIu32 "@%" PRIu64, refusal->number, refusal->offset);
}

/* Returns a reader without frames at the start of some bytes. */
static wasm_reader reader_of(uint32_t features) {
  wasm_reader reader = {0, 0, 0, 0, 0};
  reader.features = features;
  return reader;
}

static void look_at_value(const char *hex, uint32_t kind, uint64_t argument, const char *expected) {
  size_t length;
  uint8_t *bytes = bytes_of(hex, &length);
  wasm_reader reader = reader_of(WASM_FEATURES_ALL);
  wasm_value value;
  wasm_refusal refusal;
  text found = {"", 0};
  if (wasm_read_value(bytes, length, &reader, kind, argument, &value, &refusal) != 0) {
    add_error(&found, &refusal);
  } else {
    add(&found, "%" PRIu64 " %" PRIu32 " %" PRIu32 " at %" PRIu64, value.number, value.kind, value.index, reader.position);
  }
  compare("wasm_read_value", &found, expected);
  free(bytes);
}

static void look_at_constant(const uint8_t *bytes, size_t length, uint32_t features, const char *expected) {
  wasm_reader reader = reader_of(features);
  wasm_value value;
  wasm_refusal refusal;
  text found = {"", 0};
  if (wasm_read_value(bytes, length, &reader, WASM_VALUE_CONST_EXPR, 0, &value, &refusal) != 0) {
    add_error(&found, &refusal);
  } else {
    add(&found, "Ok@%" PRIu64, reader.position);
  }
  compare("constant", &found, expected);
}

static void look_at_locals(const uint8_t *bytes, size_t length, uint32_t features, const char *expected) {
  wasm_reader reader = reader_of(features);
  wasm_value value;
  wasm_refusal refusal;
  text found = {"", 0};
  if (wasm_read_value(bytes, length, &reader, WASM_VALUE_VAR_U32, 0, &value, &refusal) != 0) {
    add_error(&found, &refusal);
  } else {
    uint64_t count = value.number, total = 0;
    add(&found, "%" PRIu64, count);
    for (uint64_t i = 0; i < count; i++) {
      if (wasm_read_value(bytes, length, &reader, WASM_VALUE_LOCAL, total, &value, &refusal) != 0) {
        add(&found, " ");
        add_error(&found, &refusal);
        break;
      }
      total += value.number;
      if (i < 5) add(&found, " %" PRIu64 ":%" PRIu32 ":%" PRIu32, value.number, value.kind, value.index);
    }
  }
  compare("locals", &found, expected);
}

static void look_at_plain(const uint8_t *bytes, size_t length, uint32_t features, const char *expected) {
  size_t capacity = wasm_frames_needed(length), count = 0;
  uint8_t *frames = malloc(capacity);
  if (frames == NULL) exit(2);
  wasm_reader reader;
  wasm_operator op;
  wasm_refusal refusal;
  text found = {"", 0};
  uint32_t refused = wasm_open_body(bytes, length, 0, features, frames, capacity, &reader, &refusal);
  while (refused == 0 && reader.position < length) {
    refused = wasm_next_plain(bytes, length, frames, capacity, &reader, &op, &refusal);
    if (refused == 0) count++;
  }
  if (refused == 0) refused = wasm_finish(bytes, length, frames, capacity, &reader, &refusal);
  add(&found, "%zu ", count);
  if (refused == 0) {
    add(&found, "Ok");
  } else {
    add_error(&found, &refusal);
  }
  compare("wasm_next_plain", &found, expected);
  free(frames);
}

static void look_at_body(char *const *cells) {
  size_t length;
  uint8_t *bytes = bytes_of(cells[2], &length);
  uint32_t features = (uint32_t)strtoul(cells[1], NULL, 10);
  look_at_plain(bytes, length, features, cells[6]);
  look_at_constant(bytes, length, features, cells[7]);
  look_at_locals(bytes, length, features, cells[8]);
  free(bytes);
}

/* Compares the text of an operator and its name, also with an array that is one byte too short. */
static void look_at_text(const char *hex, const char *expected) {
  size_t length, needed = 0, name_length = 0, again = 0;
  uint8_t *bytes = bytes_of(hex, &length);
  uint8_t out[256], name[WASM_LONGEST_TEXT_NAME], none[256] = {0};
  wasm_refusal refusal;
  text found = {"", 0}, wanted = {"", 0};
  if (wasm_operator_text(bytes, length, 0, WASM_FEATURES_ALL, 0, out, sizeof out, &needed, &refusal) == 0) {
    add(&found, "%.*s ", (int)needed, (const char *)out);
  }
  if (wasm_operator_text_name(bytes, length, 0, WASM_FEATURES_ALL, 0, name, sizeof name, &name_length, &refusal) == 0) {
    add(&found, "%.*s ", (int)name_length, (const char *)name);
  }
  uint8_t kept[256] = {0};
  uint32_t short_by_one = wasm_operator_text(bytes, length, 0, WASM_FEATURES_ALL, 0, kept, needed - 1, &again, &refusal);
  add(&found, "%" PRIu32 " %d %d", short_by_one, again == needed, memcmp(kept, none, sizeof none) == 0);
  add(&wanted, "%s %.*s 102 1 1", expected, (int)strcspn(expected, " "), expected);
  compare("wasm_operator_text", &found, wanted.bytes);
  free(bytes);
}

static void look_at_module(const char *hex, int is_whole, const char *expected) {
  size_t length;
  uint8_t *bytes = bytes_of(hex, &length);
  wasm_bodies bodies;
  wasm_body body;
  wasm_refusal refusal;
  text found = {"", 0};
  uint32_t refused = wasm_open_bodies(bytes, length, &bodies, &refusal);
  while (refused == 0) {
    refused = wasm_next_body(bytes, length, &bodies, &body, &refusal);
    if (refused != 0) break;
    uint8_t name[64];
    size_t name_length = 0;
    wasm_function_name(bytes, length, body.index, name, sizeof name, &name_length, &refusal);
    add(&found, "%" PRIu32 " %" PRIu64 " ", body.index, body.offset);
    if (is_whole) add(&found, "%" PRIu64 " %" PRIu32 " ", body.length, body.type_index);
    add(&found, "%.*s;", (int)name_length, (const char *)name);
  }
  if (refused != WASM_REFUSED_NO_BODY) add_error(&found, &refusal);
  compare("wasm_next_body", &found, expected);
  free(bytes);
}

/* Compares the encoding of an operator, also with an array that is one byte too short and with another shape. */
static void look_at_encoding(const char *hex, uint64_t at, const char *shortest) {
  size_t length, count = 0, written = 0, again = 0, shape = 0;
  uint8_t *bytes = bytes_of(hex, &length);
  wasm_operator *operators = malloc((length + 1) * sizeof *operators);
  if (operators == NULL) exit(2);
  wasm_refusal refusal;
  uint8_t out[64] = {0}, kept[64] = {0}, none[64] = {0};
  text found = {"", 0}, wanted = {"", 0};
  wasm_read_body(bytes, length, 0, WASM_FEATURES_ALL, operators, length, &count, &refusal);
  for (size_t i = 0; i < count; i++) {
    wasm_operator op = operators[i];
    if (op.offset != at) continue;
    if (wasm_encode_operator(&op, bytes, length, 0, WASM_FEATURES_ALL, out, sizeof out, &written, &refusal) != 0) {
      add_error(&found, &refusal);
      break;
    }
    for (size_t k = 0; k < written; k++) add(&found, "%02x", out[k]);
    uint32_t short_by_one = wasm_encode_operator(&op, bytes, length, 0, WASM_FEATURES_ALL, kept, written - 1, &again, &refusal);
    op.shape = 200;
    uint32_t no_shape = wasm_encode_operator(&op, bytes, length, 0, WASM_FEATURES_ALL, out, sizeof out, &shape, &refusal);
    add(&found, " %" PRIu32 " %d %d %" PRIu32, short_by_one, again == written, memcmp(kept, none, sizeof none) == 0, no_shape);
  }
  add(&wanted, "%s 102 1 1 112", shortest);
  compare("wasm_encode_operator", &found, wanted.bytes);
  free(operators);
  free(bytes);
}

/* Writes a body again as an entry of a code section. Returns the length of the entry, or 0 if a call fails or writes other
 * locals. */
static size_t write_entry(const uint8_t *body, size_t length, uint8_t *out, size_t capacity) {
  wasm_locals locals[DECLARATIONS];
  uint8_t declared[14 * DECLARATIONS];
  wasm_reader reader = reader_of(WASM_FEATURES_ALL);
  wasm_value count, local;
  wasm_refusal refusal;
  size_t written = 0;
  if (wasm_read_value(body, length, &reader, WASM_VALUE_VAR_U32, 0, &count, &refusal) != 0) return 0;
  if (count.number > DECLARATIONS) exit(2);
  for (size_t i = 0; i < count.number; i++) {
    if (wasm_read_value(body, length, &reader, WASM_VALUE_LOCAL, 0, &local, &refusal) != 0) return 0;
    locals[i].count = (uint32_t)local.number;
    locals[i].ty.kind = local.kind;
    locals[i].ty.index = local.index;
  }
  size_t end = (size_t)reader.position, number = (size_t)count.number;
  if (wasm_encode_locals(locals, number, declared, sizeof declared, &written, &refusal) != 0) return 0;
  if (written != end || memcmp(declared, body, end) != 0) return 0;
  if (wasm_encode_body(locals, number, body + end, length - end, out, capacity, &written, &refusal) != 0) return 0;
  return written;
}

/* Compares the code section of a module by wabt with the section that the calls write; also with an array that is one
 * byte too short. */
static void look_at_code(const char *hex) {
  size_t length, entries_length = 0, written = 0, again = 0, end = 0;
  uint8_t *bytes = bytes_of(hex, &length), *entries = malloc(length + 1), *out = malloc(length + 1), *kept = calloc(length + 1, 1);
  if (entries == NULL || out == NULL || kept == NULL) exit(2);
  wasm_bodies bodies;
  wasm_body body;
  wasm_refusal refusal;
  uint32_t count = 0;
  text found = {"", 0};
  if (wasm_open_bodies(bytes, length, &bodies, &refusal) != 0) exit(2);
  while (wasm_next_body(bytes, length, &bodies, &body, &refusal) == 0) {
    entries_length += write_entry(bytes + body.offset, (size_t)body.length, entries + entries_length, length - entries_length);
    end = (size_t)(body.offset + body.length);
    count++;
  }
  uint32_t refused = wasm_encode_section(10, count, entries, entries_length, out, length, &written, &refusal);
  add(&found, "%" PRIu32 " %d", refused, written <= end && memcmp(out, bytes + end - written, written) == 0);
  refused = wasm_encode_section(10, count, entries, entries_length, kept, written - 1, &again, &refusal);
  add(&found, " %" PRIu32 " %d %d", refused, again == written, memchr(kept, 10, length) == NULL);
  compare("wasm_encode_section", &found, "0 1 102 1 1");
  free(kept);
  free(out);
  free(entries);
  free(bytes);
}

/* Writes a code section with one body. LOCALS has for each declaration how many locals, and the kind and the index of
 * their type. Also with arrays that are one byte too short, and for a type that is no value type. */
static void look_at_section(const char *declarations, const char *hex, const char *expected) {
  wasm_locals locals[DECLARATIONS];
  static const wasm_locals none = {1, {WASM_KIND_EMPTY, 0}};
  static const uint8_t zeros[256] = {0};
  uint8_t body[256], section[256], kept[256] = {0};
  size_t count = 0, length, body_length = 0, written = 0, again = 0;
  uint8_t *operators = bytes_of(hex, &length);
  wasm_refusal refusal;
  text found = {"", 0}, wanted = {"", 0};
  for (const char *at = declarations; *at != '\0'; at = strchr(at, ';') + 1) {
    wasm_locals *it = &locals[count++];
    if (count > DECLARATIONS || sscanf(at, "%" SCNu32 " %" SCNu32 " %" SCNu32, &it->count, &it->ty.kind, &it->ty.index) != 3) exit(2);
  }
  wasm_encode_body(locals, count, operators, length, body, sizeof body, &body_length, &refusal);
  wasm_encode_section(10, 1, body, body_length, section, sizeof section, &written, &refusal);
  for (size_t k = 0; k < written; k++) add(&found, "%02x", section[k]);
  uint32_t refused = wasm_encode_section(10, 1, body, body_length, kept, written - 1, &again, &refusal);
  add(&found, " %" PRIu32 " %d", refused, again == written);
  refused = wasm_encode_body(locals, count, operators, length, kept, body_length - 1, &again, &refusal);
  add(&found, " %" PRIu32 " %d", refused, again == body_length);
  refused = wasm_encode_locals(&none, 1, kept, sizeof kept, &again, &refusal);
  add(&found, " %" PRIu32, refused);
  refused = wasm_encode_body(&none, 1, operators, length, kept, sizeof kept, &again, &refusal);
  add(&found, " %" PRIu32 " %d %d", refused, again == body_length, memcmp(kept, zeros, sizeof kept) == 0);
  add(&wanted, "%s 102 1 102 1 112 112 1 1", expected);
  compare("wasm_encode_section", &found, wanted.bytes);
  free(operators);
}

/* Compares the verdict of a module; also with an array for half of the message, and with unknown features. */
static void look_at_validation(const char *hex, const char *expected) {
  size_t length, needed = 7, again = 7, none = 7;
  uint8_t *bytes = bytes_of(hex, &length);
  uint8_t message[256] = {0}, part[256] = {0};
  uint64_t function = 7, no_function = 7;
  wasm_refusal refusal, same;
  text found = {"", 0}, wanted = {"", 0};
  uint32_t refused = wasm_validate_module(bytes, length, WASM_FEATURES_ALL, &function, message, sizeof message, &needed, &refusal);
  if (refused == 0) {
    add(&found, "ok");
  } else if (function == WASM_NO_FUNCTION) {
    add(&found, "0x%" PRIx64 " - %.*s", refusal.offset, (int)needed, (const char *)message);
  } else {
    add(&found, "0x%" PRIx64 " %" PRIu64 " %.*s", refusal.offset, function, (int)needed, (const char *)message);
  }
  uint8_t text_of_refusal[256];
  size_t text_length = wasm_refusal_text(&refusal, text_of_refusal, sizeof text_of_refusal);
  int is_same = refused == 0 || refused == WASM_REFUSED_INVALID || (text_length == needed && memcmp(text_of_refusal, message, needed) == 0);
  wasm_validate_module(bytes, length, WASM_FEATURES_ALL, &function, part, needed / 2, &again, &same);
  int is_part = again == needed && same.number == refused && memcmp(part, message, needed / 2) == 0 && part[needed / 2] == 0;
  refused = wasm_validate_module(bytes, length, WASM_FEATURES_ALL + 1, &no_function, message, sizeof message, &none, &refusal);
  add(&found, " %d %d %" PRIu32 " %d", is_same, is_part, refused, no_function == WASM_NO_FUNCTION && none == 0);
  add(&wanted, "%s 1 1 100 1", expected);
  compare("wasm_validate_module", &found, wanted.bytes);
  free(bytes);
}

static void look_at(char *line) {
  char *cells[CELLS] = {NULL};
  size_t count = 0;
  for (char *cell = line; cell != NULL && count < CELLS; count++) {
    cells[count] = cell;
    cell = strchr(cell, '\t');
    if (cell != NULL) *cell++ = '\0';
  }
  if (strcmp(cells[0], "body") == 0 && count == 9) {
    look_at_body(cells);
  } else if (strcmp(cells[0], "text") == 0 && count == 3) {
    look_at_text(cells[1], cells[2]);
  } else if (strcmp(cells[0], "value") == 0 && count == 5) {
    look_at_value(cells[3], (uint32_t)strtoul(cells[1], NULL, 10), strtoull(cells[2], NULL, 10), cells[4]);
  } else if (strcmp(cells[0], "module") == 0 && count == 3) {
    look_at_module(cells[1], 0, cells[2]);
    look_at_code(cells[1]);
  } else if (strcmp(cells[0], "function") == 0 && count == 3) {
    look_at_module(cells[1], 1, cells[2]);
  } else if (strcmp(cells[0], "encode") == 0 && count == 4) {
    look_at_encoding(cells[1], strtoull(cells[2], NULL, 10), cells[3]);
  } else if (strcmp(cells[0], "code") == 0 && count == 4) {
    look_at_section(cells[1], cells[2], cells[3]);
  } else if (strcmp(cells[0], "validate") == 0 && count == 3) {
    look_at_validation(cells[1], cells[2]);
  } else if (strcmp(cells[0], "list") != 0) {
    printf("a row of an unknown sort: %s\n", cells[0]);
    differ++;
  }
}

int main(int argc, char **argv) {
  static char line[1 << 20];
  FILE *file = argc == 2 ? fopen(argv[1], "r") : NULL;
  if (file == NULL) {
    fprintf(stderr, "usage: rows ROWS\n");
    return 2;
  }
  while (fgets(line, sizeof line, file) != NULL) {
    line[strcspn(line, "\n")] = '\0';
    look_at(line);
  }
  fclose(file);
  printf("%zu comparisons, %zu differ\n", rows, differ);
  return differ != 0;
}
