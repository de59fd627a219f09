/* replay OUTPUT [CALLS [BODIES EXPECTED]..]: compares the library with wasmparser's output, and makes CALLS random calls.
 *
 * OUTPUT is crates/wasm_tests_replay/stdin: bodies, and samples of each operator. A file of BODIES has bodies one after
 * the other, each a length in four bytes, little-endian, and its bytes; EXPECTED has a row for each. Each body is read by
 * one call, also into short arrays, by one call per operator, and in batches. Two threads read all rows. The last line
 * counts the differences, and the status is 1 if there are any. */
#include "wasm_operators.h"

#include <inttypes.h>
#include <pthread.h>
#include <stdio.h>
#include <stdlib.h>
#include <string.h>

/* The numbers of columns of bodies, of samples and of EXPECTED, and some columns of bodies. */
enum { COLUMNS = 15, SAMPLE_COLUMNS = 6, BODY_COLUMNS = 8, FEATURES = 1, HEX = 2, STATUS = 3 };

/* The number of samples with a list. */
enum { LISTS = 14 };

static size_t wrong;
static pthread_mutex_t printing = PTHREAD_MUTEX_INITIALIZER;

#define LOOK(is_right, ...) \
  do { \
    if (!(is_right)) { \
      pthread_mutex_lock(&printing); \
      if (wrong++ < 10) { \
        printf("%s: ", #is_right); \
        printf(__VA_ARGS__); \
        printf("\n"); \
      } \
      pthread_mutex_unlock(&printing); \
    } \
  } while (0)

/* Returns memory, or ends the program. */
static void *allocate(size_t count, size_t size) {
  void *capacity = malloc(count * size == 0 ? 1 : count * size);
  if (capacity == NULL) exit(2);
  return capacity;
}

static uint64_t fingerprint(uint64_t sum, const char *text) {
  for (; *text; text++) sum = (sum ^ (uint8_t)*text) * 1099511628211u;
  return sum;
}

/* Returns the fingerprint of the lines: FNV-1a of 64 bits. */
static uint64_t lines_of(const wasm_operator *operators, size_t count) {
  uint64_t sum = 14695981039346656037u;
  for (size_t i = 0; i < count; i++) {
    char line[32 + WASM_LONGEST_NAME], name[WASM_LONGEST_NAME];
    size_t written = wasm_operator_name(&operators[i], (uint8_t *)name, sizeof name);
    LOOK(written > 0 && written <= sizeof name, "%zu", written);
    snprintf(line, sizeof line, "%" PRIu64 " %.*s\n", operators[i].offset, (int)written, name);
    sum = fingerprint(sum, line);
  }
  return sum;
}

/* Compares a call with this capacity: the same result, and nothing is written after the array. */
static void look_with_capacity(const uint8_t *bytes, size_t length, uint32_t features, size_t capacity,
                           const wasm_operator *all, size_t count, const wasm_refusal *refusal) {
  wasm_operator *some = allocate(capacity, sizeof *some);
  memset(some, 0xa5, capacity * sizeof *some);
  size_t found = 0;
  wasm_refusal other;
  wasm_read_body(bytes, length, 0, features, some, capacity, &found, &other);
  size_t placed = found < capacity ? found : capacity;
  LOOK(found == count, "capacity %zu: %zu, not %zu", capacity, found, count);
  LOOK(memcmp(refusal, &other, sizeof other) == 0, "capacity %zu", capacity);
  LOOK(found != count || memcmp(some, all, placed * sizeof *some) == 0, "capacity %zu", capacity);
  for (size_t i = placed * sizeof *some; i < capacity * sizeof *some; i++) {
    LOOK(((uint8_t *)some)[i] == 0xa5, "byte %zu of capacity %zu", i, capacity);
  }
  free(some);
}

/* Compares one call per operator. Every third call is repeated, from a copy of reader and frames. */
static void look_step_by_step(const uint8_t *bytes, size_t length, uint32_t features, const wasm_operator *all,
                              size_t count, const wasm_refusal *refusal) {
  size_t capacity = wasm_frames_needed(length);
  uint8_t *frames = allocate(capacity, 1);
  uint8_t *kept = allocate(capacity, 1);
  wasm_reader reader;
  wasm_refusal other;
  size_t found = 0;
  uint32_t result = wasm_open_body(bytes, length, 0, features, frames, capacity, &reader, &other);
  while (result == 0 && reader.position < length) {
    wasm_reader copy = reader;
    wasm_operator op;
    if (found % 3 == 0) {
      memcpy(kept, frames, capacity);
      result = wasm_next(bytes, length, frames, capacity, &reader, &op, &other);
      memcpy(frames, kept, capacity);
      reader = copy;
    }
    memset(&op, 0xa5, sizeof op);
    result = wasm_next(bytes, length, frames, capacity, &reader, &op, &other);
    if (result != 0) {
      LOOK(memcmp(&reader, &copy, sizeof copy) == 0 && ((uint8_t *)&op)[sizeof op - 1] == 0xa5, "step %zu", found);
      break;
    }
    LOOK(found < count && memcmp(&op, &all[found], sizeof op) == 0, "step %zu", found);
    found++;
  }
  if (result == 0) result = wasm_finish(bytes, length, frames, capacity, &reader, &other);
  LOOK(found == count, "%zu steps, not %zu", found, count);
  LOOK(result == other.number && memcmp(refusal, &other, sizeof other) == 0, "%" PRIu32 " at %" PRIu64, other.number, other.offset);
  free(frames);
  free(kept);
}

/* Compares batches. */
static void look_by_batches(const uint8_t *bytes, size_t length, uint32_t features, size_t batch,
                            const wasm_operator *all, size_t count, const wasm_refusal *refusal) {
  size_t capacity = wasm_frames_needed(length);
  uint8_t *frames = allocate(capacity, 1);
  wasm_operator *some = allocate(batch + 1, sizeof *some);
  wasm_reader reader;
  wasm_refusal other;
  size_t found = 0;
  uint32_t result = wasm_open_body(bytes, length, 0, features, frames, capacity, &reader, &other);
  while (result == 0 && reader.position < length) {
    size_t read = batch + 2;
    memset(some, 0xa5, (batch + 1) * sizeof *some);
    result = wasm_read(bytes, length, frames, capacity, &reader, some, batch, &read, &other);
    LOOK(read <= batch && (result != 0 || read == batch || reader.position == length), "batch of %zu: %zu", batch, read);
    LOOK(found + read <= count && memcmp(some, all + found, read * sizeof *some) == 0, "batch of %zu at %zu", batch, found);
    for (size_t i = read * sizeof *some; i < (batch + 1) * sizeof *some; i++) {
      LOOK(((uint8_t *)some)[i] == 0xa5, "byte %zu of a batch of %zu", i, batch);
    }
    found += read;
  }
  if (result == 0) result = wasm_finish(bytes, length, frames, capacity, &reader, &other);
  LOOK(found == count, "%zu by batches of %zu, not %zu", found, batch, count);
  LOOK(result == other.number && memcmp(refusal, &other, sizeof other) == 0, "%" PRIu32 " at %" PRIu64, other.number, other.offset);
  free(frames);
  free(some);
}

/* A member of any list. */
typedef union member {
  uint32_t target;
  wasm_type type;
  wasm_handler handler;
} member;

/* Reads members of an operator's list by the call of its shape. */
static uint32_t members_of(const uint8_t *bytes, size_t length, uint32_t features, const wasm_operator *op,
                           size_t index, member *out, size_t capacity, size_t *count, wasm_refusal *refusal) {
  void *some = allocate(capacity, sizeof(member));
  size_t size = sizeof(wasm_handler);
  uint32_t result;
  if (op->shape == WASM_SHAPE_BRANCH_TABLE) {
    size = sizeof(uint32_t);
    result = wasm_br_table_targets(bytes, length, 0, features, op->offset, index, some, capacity, count, refusal);
  } else if (op->shape == WASM_SHAPE_SELECT_ONE || op->shape == WASM_SHAPE_SELECT_MANY) {
    size = sizeof(wasm_type);
    result = wasm_select_types(bytes, length, 0, features, op->offset, index, some, capacity, count, refusal);
  } else if (op->shape == WASM_SHAPE_TRY_TABLE) {
    result = wasm_try_table_catches(bytes, length, 0, features, op->offset, index, some, capacity, count, refusal);
  } else {
    result = wasm_resume_handlers(bytes, length, 0, features, op->offset, index, some, capacity, count, refusal);
  }
  size_t placed = result != 0 || index >= *count ? 0 : *count - index < capacity ? *count - index : capacity;
  memset(out, 0, capacity * sizeof *out);
  for (size_t i = 0; i < placed; i++) memcpy(&out[i], (const char *)some + i * size, size);
  free(some);
  return result;
}

/* Returns the length of an operator's list, or 0. */
static size_t count_of(const wasm_operator *op) {
  switch (op->shape) {
    case WASM_SHAPE_BRANCH_TABLE: return op->first;
    case WASM_SHAPE_SELECT_ONE: return 1;
    case WASM_SHAPE_SELECT_MANY: return op->first;
    case WASM_SHAPE_TRY_TABLE: return op->second;
    case WASM_SHAPE_RESUME: return op->second;
    case WASM_SHAPE_RESUME_THROW: return op->third;
    default: return 0;
  }
}

/* Reads the list of each operator, also from the middle, or checks that it has none. */
static void look_at_lists(const uint8_t *bytes, size_t length, uint32_t features, const wasm_operator *operators, size_t count) {
  for (size_t i = 0; i < count; i++) {
    const wasm_operator *op = &operators[i];
    size_t wanted = count_of(op);
    size_t found = 77;
    wasm_refusal refusal;
    member *all = allocate(wanted + 1, sizeof *all);
    member two[2];
    int has = op->shape >= WASM_SHAPE_BRANCH_TABLE && op->shape <= WASM_SHAPE_RESUME_THROW;
    uint32_t result = members_of(bytes, length, features, op, 0, all, wanted, &found, &refusal);
    LOOK(result == refusal.number, "%" PRIu32, result);
    if (!has) {
      /* (a few operators need another frame than a block) */
      LOOK(result == WASM_REFUSED_NO_LIST || result == WASM_REFUSED_WRONG_FRAME, "%" PRIu32, result);
      LOOK(found == 77, "%zu", found);
    } else {
      LOOK(result == 0 && found == wanted, "%" PRIu32 ": %zu, not %zu", result, found, wanted);
      size_t middle = wanted / 2;
      result = members_of(bytes, length, features, op, middle, two, 2, &found, &refusal);
      LOOK(result == 0 && found == wanted, "%" PRIu32, result);
      for (size_t k = 0; k < 2 && middle + k < wanted; k++) LOOK(memcmp(&two[k], &all[middle + k], sizeof *two) == 0, "%zu", k);
    }
    free(all);
  }
}

/* Compares a body with the cells of its row from the status on. */
static void look_at_body(const uint8_t *bytes, size_t length, uint32_t features, char *const *expected) {
  enum { STATUS, NUMBER, OFFSET, TEXT, OPERATORS, LINES };
  wasm_operator *operators = allocate(length, sizeof *operators);
  size_t count = 0;
  wasm_refusal refusal;
  uint32_t result = wasm_read_body(bytes, length, 0, features, operators, length, &count, &refusal);

  const char *digits = expected[NUMBER] + (expected[NUMBER][0] == 'E');
  uint32_t number = expected[STATUS][0] == '0' ? 0 : (uint32_t)strtoul(digits, NULL, 10);
  LOOK(result == number && refusal.number == number, "%s: %" PRIu32, expected[NUMBER], result);
  uint64_t offset = number == 0 ? length : strtoull(expected[OFFSET], NULL, 10);
  LOOK(refusal.offset == offset, "%s: %" PRIu64, expected[OFFSET], refusal.offset);
  LOOK(count == strtoull(expected[OPERATORS], NULL, 10), "%s: %zu operators", expected[OPERATORS], count);
  if (count <= length) {
    LOOK(lines_of(operators, count) == strtoull(expected[LINES], NULL, 16), "%s", expected[LINES]);
    look_with_capacity(bytes, length, features, 0, operators, count, &refusal);
    look_with_capacity(bytes, length, features, count / 2, operators, count, &refusal);
    look_with_capacity(bytes, length, features, count + 3, operators, count, &refusal);
    look_step_by_step(bytes, length, features, operators, count, &refusal);
    look_by_batches(bytes, length, features, 1 + count % 7, operators, count, &refusal);
    look_at_lists(bytes, length, features, operators, count);
  }
  char text[128];
  size_t written = wasm_refusal_text(&refusal, (uint8_t *)text, sizeof text - 1);
  text[written < sizeof text ? written : sizeof text - 1] = 0;
  LOOK(strcmp(text, number == 0 ? "" : expected[TEXT]) == 0, "%s: %s", expected[TEXT], text);
  uint8_t few[4];
  LOOK(wasm_refusal_text(&refusal, few, sizeof few) == written, "%s", text);
  free(operators);
}

/* Appends the bytes of hexadecimal digits. */
static size_t add_bytes(uint8_t *bytes, size_t length, const char *hex) {
  for (; hex[0] != 0; hex += 2) {
    char byte[3] = {hex[0], hex[1], 0};
    bytes[length++] = (uint8_t)strtoul(byte, NULL, 16);
  }
  return length;
}

/* Compares a row of bodies. */
static void look_at(char *const *cells) {
  uint8_t *bytes = allocate(strlen(cells[HEX]) / 2, 1);
  size_t length = add_bytes(bytes, 0, cells[HEX]);
  look_at_body(bytes, length, (uint32_t)strtoul(cells[FEATURES], NULL, 10), cells + STATUS);
  free(bytes);
}

/* Writes a member as in the samples. */
static void write_member(char *out, size_t capacity, const wasm_operator *op, const member *it) {
  static const char *const catches[] = {"one", "oneref", "all", "allref"};
  if (op->shape == WASM_SHAPE_BRANCH_TABLE) {
    snprintf(out, capacity, "%" PRIu32, it->target);
  } else if (op->shape == WASM_SHAPE_SELECT_ONE || op->shape == WASM_SHAPE_SELECT_MANY) {
    uint32_t kind = it->type.kind;
    snprintf(out, capacity, "%s",
             kind == WASM_KIND_I32 ? "I32" : kind == WASM_KIND_V128 ? "V128"
             : kind == WASM_KIND_REFERENCE + WASM_KIND_NULLABLE + WASM_KIND_FUNC ? "?Func" : "another");
  } else if (op->shape == WASM_SHAPE_TRY_TABLE && it->handler.kind < WASM_CATCH_ALL) {
    snprintf(out, capacity, "%s:%" PRIu32 ":%" PRIu32, catches[it->handler.kind], it->handler.tag, it->handler.label);
  } else if (op->shape == WASM_SHAPE_TRY_TABLE) {
    snprintf(out, capacity, "%s:%" PRIu32, catches[it->handler.kind % 4], it->handler.label);
  } else if (it->handler.kind == WASM_CLAUSE_ON_LABEL) {
    snprintf(out, capacity, "label:%" PRIu32 ":%" PRIu32, it->handler.tag, it->handler.label);
  } else {
    snprintf(out, capacity, "switch:%" PRIu32, it->handler.tag);
  }
}

/* Compares the list of a sample's operator, and returns whether it has one. */
static int look_at_sample(char *const *cells) {
  uint8_t bytes[256];
  size_t at = add_bytes(bytes, 0, cells[2]);
  size_t length = add_bytes(bytes, add_bytes(bytes, at, cells[3]), cells[4]);
  wasm_operator operators[256];
  size_t count = 0;
  wasm_refusal refusal;
  LOOK(wasm_read_body(bytes, length, 0, WASM_FEATURES_ALL, operators, 256, &count, &refusal) == 0, "%s", cells[3]);
  for (size_t i = 0; i < count; i++) {
    const wasm_operator *op = &operators[i];
    if (op->offset != at || op->shape < WASM_SHAPE_BRANCH_TABLE || op->shape > WASM_SHAPE_RESUME_THROW) continue;
    member members[16];
    size_t found = 0;
    LOOK(members_of(bytes, length, WASM_FEATURES_ALL, op, 0, members, 16, &found, &refusal) == 0, "%s", cells[3]);
    char text[512] = "[";
    for (size_t k = 0; k < found && k < 16; k++) {
      char one[64];
      write_member(one, sizeof one, op, &members[k]);
      if (k > 0) strcat(text, ",");
      strcat(text, one);
    }
    strcat(text, "]");
    if (op->shape == WASM_SHAPE_SELECT_ONE) {
      text[strlen(text) - 1] = 0;
      text[0] = '=';
    }
    LOOK(strstr(cells[5], text) != NULL, "%s: %s", cells[5], text);
    return 1;
  }
  return 0;
}

/* Returns a random number (xorshift64*). */
static uint64_t state = 88172645463325252u;
static uint64_t random_number(void) {
  state ^= state >> 12;
  state ^= state << 25;
  state ^= state >> 27;
  return state * 2685821657736338717u;
}

/* Reads a list at an offset of any bytes. */
static void look_at_random_list(const uint8_t *bytes, size_t length, uint64_t offset, uint32_t features, const wasm_operator *op) {
  uint32_t targets[4] = {7, 7, 7, 7};
  wasm_handler handlers[4] = {{7, 7, 7}, {7, 7, 7}, {7, 7, 7}, {7, 7, 7}};
  size_t index = random_number() % 3, capacity = random_number() % 4, count = 77;
  int is_table = op->shape == WASM_SHAPE_BRANCH_TABLE;
  wasm_refusal refusal;
  uint32_t result = is_table
      ? wasm_br_table_targets(bytes, length, offset, features, op->offset, index, targets, capacity, &count, &refusal)
      : op->shape == WASM_SHAPE_TRY_TABLE
      ? wasm_try_table_catches(bytes, length, offset, features, op->offset, index, handlers, capacity, &count, &refusal)
      : wasm_resume_handlers(bytes, length, offset, features, op->offset, index, handlers, capacity, &count, &refusal);
  LOOK(result == refusal.number, "%" PRIu32, result);
  if (result != 0) {
    LOOK(count == 77, "%zu", count);
  } else {
    LOOK(op->offset - offset < length && count < length, "%zu", count);
  }
  size_t placed = result != 0 || index >= count ? 0 : count - index < capacity ? count - index : capacity;
  for (size_t i = placed; i < 4; i++) LOOK(is_table ? targets[i] == 7 : handlers[i].kind == 7, "%zu", i);
}

/* Calls the functions with random arguments. */
static void look_at_random(void) {
  static const uint8_t likely[] = {0x00, 0x01, 0x02, 0x03, 0x04, 0x05, 0x0b, 0x0e, 0x10, 0x1f, 0x20, 0x28, 0x40, 0x41, 0x7f, 0x80, 0xfb, 0xfc, 0xfd, 0xfe};
  size_t length = random_number() % 40;
  uint8_t *bytes = allocate(length, 1);
  for (size_t i = 0; i < length; i++) {
    uint64_t one = random_number();
    bytes[i] = one % 3 == 0 ? (uint8_t)(one >> 8) : likely[(one >> 8) % sizeof likely];
  }
  if (length > 0 && random_number() % 4 != 0) bytes[0] = 0;
  uint64_t kinds = random_number();
  uint32_t features = kinds % 16 == 0 ? (uint32_t)random_number() : (uint32_t)(kinds >> 8) % 64;
  uint64_t offset = kinds % 32 < 4 ? 0 - random_number() % 64 : random_number() >> (kinds >> 16) % 64;
  size_t capacity = random_number() % 24;
  wasm_operator *operators = allocate(capacity, sizeof *operators);
  uint8_t name[4];
  size_t count = 1;
  wasm_refusal refusal;
  uint32_t result = wasm_read_body(bytes, length, offset, features, operators, capacity, &count, &refusal);
  LOOK(result == refusal.number, "%" PRIu32, result);
  if (features > 63) {
    LOOK(result == WASM_REFUSED_UNKNOWN_FEATURES && count == 0 && refusal.offset == offset, "%" PRIu32, features);
  } else if (offset > UINT64_MAX - length) {
    LOOK(result == WASM_REFUSED_PAST_OFFSETS && count == 0 && refusal.offset == offset, "%" PRIu64, offset);
  } else {
    LOOK(result <= 25 && count <= length, "%" PRIu32, result);
    LOOK(refusal.offset >= offset && refusal.offset - offset <= length, "%" PRIu64, refusal.offset);
    LOOK(result != 0 || (count > 0 && refusal.offset == offset + length), "%zu", count);
    for (size_t i = 0; i < count && i < capacity; i++) {
      LOOK(wasm_operator_name(&operators[i], name, sizeof name) > 0, "%" PRIx32, operators[i].opcode);
      LOOK(operators[i].offset - offset < length, "%" PRIu64, operators[i].offset);
      LOOK(i == 0 || operators[i - 1].offset < operators[i].offset, "%zu", i);
    }
  }
  /* (a reader that is not opened, is overwritten, or is of other bytes) */
  uint8_t frames[6];
  size_t few = random_number() % (sizeof frames + 1);
  for (size_t i = 0; i < sizeof frames; i++) frames[i] = random_number() % 3 ? (uint8_t)random_number() % 9 : (uint8_t)random_number();
  wasm_reader reader = {offset, random_number() % (length + 2), random_number() % (few + 2), features, 0};
  if (random_number() % 4 == 0) wasm_open(bytes, length, offset, features, frames, few, &reader, &refusal);
  for (int steps = 0; steps < 8; steps++) {
    wasm_reader before = reader;
    wasm_operator op;
    uint32_t next = wasm_next(bytes, length, frames, few, &reader, &op, &refusal);
    LOOK(next == refusal.number, "%" PRIu32, next);
    int was = features < 64 && offset <= UINT64_MAX - length && before.position <= length && before.depth <= few;
    LOOK(was == (next != WASM_REFUSED_NOT_A_READER), "%" PRIu32, next);
    if (next == 0) {
      LOOK(op.offset == offset + before.position && reader.position > before.position && reader.position <= length, "%" PRIu64, op.offset);
      LOOK(reader.depth <= few && reader.depth <= before.depth + 1 && before.depth <= reader.depth + 1, "%" PRIu64, reader.depth);
    } else {
      LOOK(memcmp(&before, &reader, sizeof reader) == 0, "%" PRIu32, next);
      break;
    }
  }
  wasm_finish(bytes, length, frames, few, &reader, &refusal);
  wasm_operator some = {0};
  some.offset = offset + random_number() % (length + 3) - random_number() % 2;
  some.shape = (uint8_t)(WASM_SHAPE_BRANCH_TABLE + random_number() % 6);
  look_at_random_list(bytes, length, offset, features, &some);
  wasm_refusal other = {random_number(), (uint32_t)random_number() % 27, (uint32_t)random_number() % 40, (uint32_t)random_number() % 300, 0};
  uint8_t text[8];
  wasm_refusal_text(&other, text, random_number() % 9);
  free(operators);
  free(bytes);
}

/* A row of the file, in cells. */
typedef struct row {
  char *cells[COLUMNS];
} row;

/* The rows of bodies, then of samples. */
typedef struct rows {
  row *rows;
  size_t bodies;
  size_t samples;
} rows;

/* Splits a line into this many cells, or ends the program. */
static row cells_of(const char *line, int columns) {
  row read = {{NULL}};
  char *text = allocate(strlen(line) + 1, 1);
  strcpy(text, line);
  read.cells[0] = text;
  int found = 1;
  for (char *at = text; (at = strchr(at, '\t')) != NULL && found < columns; found++) {
    *at++ = 0;
    read.cells[found] = at;
  }
  if (found != columns) exit(2);
  return read;
}

/* Reads bodies and samples. */
static rows rows_of(FILE *file) {
  rows read = {NULL, 0, 0};
  static char line[1 << 20];
  size_t capacity = 0;
  int samples = 0;
  while (fgets(line, sizeof line, file) != NULL) {
    line[strcspn(line, "\n")] = 0;
    if (strncmp(line, "group\t", 6) == 0) continue;
    if (strncmp(line, "name\t", 5) == 0) {
      samples = 1;
      continue;
    }
    size_t count = read.bodies + read.samples;
    if (count == capacity) {
      capacity = capacity == 0 ? 1024 : 2 * capacity;
      read.rows = realloc(read.rows, capacity * sizeof *read.rows);
      if (read.rows == NULL) exit(2);
    }
    read.rows[count] = cells_of(line, samples ? SAMPLE_COLUMNS : COLUMNS);
    if (samples) read.samples++;
    else read.bodies++;
  }
  return read;
}

/* Compares all bodies, as a thread. */
static void *look_at_all(void *given) {
  const rows *read = given;
  for (size_t i = 0; i < read->bodies; i++) look_at(read->rows[i].cells);
  return NULL;
}

/* Opens a file, or ends the program. */
static FILE *opened(const char *path) {
  FILE *file = fopen(path, "rb");
  if (file == NULL) exit(2);
  return file;
}

/* Compares the bodies of a file, and returns their number. */
static size_t look_at_bodies(FILE *bodies, FILE *expected) {
  static char line[1 << 12];
  size_t count = 0;
  uint8_t head[4];
  for (; fread(head, 1, sizeof head, bodies) == sizeof head; count++) {
    size_t length = head[0] | head[1] << 8 | head[2] << 16 | (size_t)head[3] << 24;
    uint8_t *bytes = allocate(length, 1);
    if (fread(bytes, 1, length, bodies) != length || fgets(line, sizeof line, expected) == NULL) exit(2);
    line[strcspn(line, "\n")] = 0;
    row wanted = cells_of(line, BODY_COLUMNS);
    look_at_body(bytes, length, WASM_FEATURES_ALL, wanted.cells + 2);
    free(wanted.cells[0]);
    free(bytes);
  }
  return count;
}

int main(int argc, char **argv) {
  if (argc < 2 || wasm_operators_version() != WASM_OPERATORS_VERSION) return 2;
  FILE *file = opened(argv[1]);
  rows read = rows_of(file);
  fclose(file);
  pthread_t other;
  if (pthread_create(&other, NULL, look_at_all, &read) != 0) return 2;
  look_at_all(&read);
  pthread_join(other, NULL);
  size_t lists = 0;
  for (size_t i = 0; i < read.samples; i++) lists += look_at_sample(read.rows[read.bodies + i].cells);
  LOOK(read.samples == 0 || lists == LISTS, "%zu", lists);
  size_t calls = argc > 2 ? strtoull(argv[2], NULL, 10) : 0;
  for (size_t i = 0; i < calls; i++) look_at_random();
  size_t bodies = 0;
  for (int i = 3; i + 1 < argc; i += 2) {
    FILE *some = opened(argv[i]), *expected = opened(argv[i + 1]);
    bodies += look_at_bodies(some, expected);
    fclose(some);
    fclose(expected);
  }
  printf("%zu bodies of wasmparser's output by two threads, %zu lists, %zu random calls and %zu bodies of files, %zu wrong\n",
         read.bodies, lists, calls, bodies, wrong);
  for (size_t i = 0; i < read.bodies + read.samples; i++) free(read.rows[i].cells[0]);
  free(read.rows);
  return wrong != 0 || read.bodies == 0;
}
