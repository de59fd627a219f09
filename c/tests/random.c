/* random CALLS MODULE..: calls the library on changed and cut modules, and on random structs.
 *
 * An array of length 0 may be null. A call that fails may change only `*refusal`, and a text's length. A body lies within
 * its module. The first call that does otherwise is named, and the status is 1. An operator without a list that is written
 * is read again. */
#include "wasm_operators.h"

#include <stdint.h>
#include <stdio.h>
#include <stdlib.h>
#include <string.h>

enum { LONGEST = 512, TEXT = 40, FRAMES = 8 };

static uint64_t state = 88172645463325252u;

/* Returns a random number below `limit`. */
static uint64_t below(uint64_t limit) {
  state ^= state << 13;
  state ^= state >> 7;
  state ^= state << 17;
  return state % limit;
}

/* Ends the program unless this is true. */
static void require(int is_true, const char *what) {
  if (is_true) return;
  printf("%s\n", what);
  exit(1);
}

static void fill(void *place, size_t size) {
  for (size_t i = 0; i < size; i++) ((uint8_t *)place)[i] = (uint8_t)(below(3) == 0 ? below(256) : 0);
}

static void try_bodies(const uint8_t *bytes, size_t length) {
  wasm_bodies bodies, before;
  wasm_body body, kept;
  wasm_refusal refusal;
  fill(&bodies, sizeof bodies);
  fill(&body, sizeof body);
  before = bodies;
  if (below(4) != 0 && wasm_open_bodies(bytes, length, &bodies, &refusal) != 0) {
    require(memcmp(&before, &bodies, sizeof bodies) == 0, "wasm_open_bodies");
  }
  if (below(8) == 0) bodies.code = below(length + 9);
  if (below(8) == 0) bodies.left = (uint32_t)below(9);
  uint32_t refused = 0;
  for (int i = 0; i < 9 && refused == 0; i++) {
    before = bodies;
    kept = body;
    refused = wasm_next_body(bytes, length, &bodies, &body, &refusal);
    int same = memcmp(&before, &bodies, sizeof bodies) == 0 && memcmp(&kept, &body, sizeof body) == 0;
    require(refused == 0 ? body.offset + body.length <= length : same, "wasm_next_body");
  }
}

/* Checks a text that was written to an array of `length` bytes, or was not written. */
static void look_at_text(uint32_t refused, const uint8_t *text, size_t length, size_t needed, const char *call) {
  int same = 1;
  for (size_t i = refused == 0 ? needed : 0; i < TEXT; i++) same = same && text[i] == 0x5a;
  require(same, call);
  if (refused == 0) require(needed <= length, call);
  if (refused == WASM_REFUSED_NO_ROOM) require(needed > length, call);
  if (refused != 0 && refused != WASM_REFUSED_NO_ROOM) require(needed == 7, call);
}

static void try_texts(const uint8_t *bytes, size_t length) {
  uint8_t text[TEXT];
  wasm_refusal refusal;
  size_t capacity = (size_t)below(TEXT), needed = 7;
  uint64_t offset = below(3), at = below(length + 5);
  uint32_t features = (uint32_t)below(70);
  memset(text, 0x5a, sizeof text);
  uint32_t refused = wasm_function_name(bytes, length, (uint32_t)below(5), text, capacity, &needed, &refusal);
  look_at_text(refused, text, capacity, needed, "wasm_function_name");
  memset(text, 0x5a, sizeof text);
  needed = 7;
  refused = wasm_operator_text(bytes, length, offset, features, at, text, capacity, &needed, &refusal);
  look_at_text(refused, text, capacity, needed, "wasm_operator_text");
  memset(text, 0x5a, sizeof text);
  needed = 7;
  refused = wasm_operator_text_name(bytes, length, offset, features, at, text, capacity, &needed, &refusal);
  look_at_text(refused, text, capacity, needed, "wasm_operator_text_name");
}

/* Checks that only the position and the number of frames changed, or nothing. */
static void look_at_reader(uint32_t refused, const wasm_reader *old, wasm_reader now, const char *call) {
  if (refused == 0) {
    now.position = old->position;
    now.depth = old->depth;
  }
  require(memcmp(old, &now, sizeof now) == 0, call);
}

static void try_reader(const uint8_t *bytes, size_t length) {
  wasm_reader reader;
  wasm_value value, kept;
  wasm_operator op;
  wasm_refusal refusal;
  uint8_t frames[FRAMES];
  fill(&reader, sizeof reader);
  fill(&value, sizeof value);
  fill(frames, sizeof frames);
  reader.features %= 66;
  reader.position = below(length + 3);
  reader.depth = below(2);
  if (below(4) != 0) reader.offset %= 1000;
  wasm_reader old = reader;
  kept = value;
  uint64_t argument = below(4) == 0 ? UINT64_MAX - below(3) : below(10);
  uint32_t refused = wasm_read_value(bytes, length, &reader, (uint32_t)below(22), argument, &value, &refusal);
  look_at_reader(refused, &old, reader, "wasm_read_value");
  require(refused == 0 || memcmp(&kept, &value, sizeof value) == 0, "wasm_read_value");
  require(refused != 0 || reader.position <= length, "wasm_read_value");
  reader = old;
  reader.depth = below(FRAMES + 2);
  old = reader;
  refused = wasm_next_plain(bytes, length, frames, sizeof frames, &reader, &op, &refusal);
  look_at_reader(refused, &old, reader, "wasm_next_plain");
}

/* Returns 0 mostly, else a number of at most `bits` bits. */
static uint64_t rare(unsigned bits) {
  return below(8) == 0 ? below(UINT64_MAX) >> (64 - 1 - below(bits)) : 0;
}

/* Returns an operator with few fields that are not 0. */
static wasm_operator random_operator(size_t length) {
  wasm_operator op;
  memset(&op, 0, sizeof op);
  op.offset = below(length + 2);
  op.wide = rare(64);
  op.opcode = (uint32_t)(below(2) == 0 ? below(256) : 0xfb0000 + 65536 * below(4) + below(300));
  op.first = (uint32_t)rare(32);
  op.second = (uint32_t)rare(32);
  op.third = (uint32_t)rare(32);
  op.kind = (uint32_t)(below(4) == 0 ? 1024 * below(2) + 512 * below(2) + 256 * below(2) + 0x60 + below(32) : below(3));
  op.other_kind = (uint32_t)rare(10);
  op.shape = (uint8_t)(below(4) != 0 ? below(26) : 0);
  op.align = (uint8_t)below(4);
  op.max_align = (uint8_t)below(4);
  op.lane = (uint8_t)rare(8);
  op.target = (uint16_t)rare(2);
  op.ordering = (uint16_t)rare(3);
  if (below(8) == 0) fill(op.bytes, sizeof op.bytes);
  if (op.shape != 3 && op.shape != 4) op.align = op.max_align = 0;
  if (op.shape < 15) op.kind = 0;
  return op;
}

/* Returns whether the fields but the offset are equal. */
static int is_same(wasm_operator a, wasm_operator b) {
  a.offset = b.offset;
  return memcmp(&a, &b, sizeof a) == 0;
}

static void try_encoding(const uint8_t *bytes, size_t length) {
  wasm_operator op = random_operator(length), again;
  wasm_reader reader;
  wasm_refusal refusal;
  uint8_t out[TEXT], kept[TEXT], frames[2] = {0, 0};
  size_t written = 0;
  fill(out, sizeof out);
  memcpy(kept, out, sizeof out);
  size_t capacity = below(2) == 0 ? sizeof out : below(sizeof out);
  uint32_t refused = wasm_encode_operator(&op, bytes, length, 0, WASM_FEATURES_ALL, out, capacity, &written, &refusal);
  if (refused != 0) {
    require(memcmp(out, kept, sizeof out) == 0, "wasm_encode_operator");
    return;
  }
  require(written <= capacity && memcmp(out + written, kept + written, sizeof out - written) == 0, "wasm_encode_operator");
  if (wasm_open(out, written, 0, WASM_FEATURES_ALL, frames, sizeof frames, &reader, &refusal) != 0) exit(2);
  refused = wasm_next(out, written, frames, sizeof frames, &reader, &again, &refusal);
  require(refused == WASM_REFUSED_WRONG_FRAME || (refused == 0 && reader.position == written && is_same(again, op)), "wasm_encode_operator");
}

/* Writes a body with random locals, and reads the locals again. */
static void try_locals(const uint8_t *bytes, size_t length) {
  wasm_locals locals[4];
  size_t count = below(5), written = 0;
  for (size_t i = 0; i < count; i++) {
    locals[i].count = (uint32_t)rare(32);
    locals[i].ty.kind = (uint32_t)(below(4) == 0 ? 1024 * below(2) + 512 * below(2) + 256 * below(2) + 0x60 + below(32) : 0x7b + below(5));
    locals[i].ty.index = (uint32_t)(below(4) == 0 ? rare(32) : 0);
  }
  uint8_t out[TEXT], kept[TEXT];
  fill(out, sizeof out);
  memcpy(kept, out, sizeof out);
  wasm_refusal refusal;
  size_t capacity = below(sizeof out), operators = length < 16 ? length : 16;
  uint32_t refused = wasm_encode_body(locals, count, bytes, operators, out, capacity, &written, &refusal);
  require(refused == refusal.number && refusal.offset == 0, "wasm_encode_body");
  if (refused != 0) {
    require(memcmp(out, kept, sizeof out) == 0 && (refused == WASM_REFUSED_NOT_WRITABLE || written > capacity), "wasm_encode_body");
    return;
  }
  require(written <= capacity && memcmp(out + written, kept + written, sizeof out - written) == 0, "wasm_encode_body");
  wasm_reader reader = {0, 0, 0, WASM_FEATURES_ALL, 0};
  wasm_value value;
  require(wasm_read_value(out, written, &reader, WASM_VALUE_VAR_U32, 0, &value, &refusal) == 0 && value.number == written - reader.position, "wasm_encode_body");
  require(wasm_read_value(out, written, &reader, WASM_VALUE_VAR_U32, 0, &value, &refusal) == 0 && value.number == count, "wasm_encode_body");
  for (size_t i = 0; i < count; i++) {
    require(wasm_read_value(out, written, &reader, WASM_VALUE_LOCAL, 0, &value, &refusal) == 0 && value.number == locals[i].count, "wasm_encode_body");
    require(value.kind == locals[i].ty.kind && value.index == locals[i].ty.index, "wasm_encode_body");
  }
  require(memcmp(out + reader.position, bytes, operators) == 0 && reader.position + operators == written, "wasm_encode_body");
}

static int is_within(wasm_range range, size_t length) { return range.offset <= length && range.length <= length - range.offset; }

/* Reads the items of a list as imports, exports, indices, names or subsections. */
static void try_items(const uint8_t *bytes, size_t length, wasm_items items) {
  uint64_t what = below(5);
  uint32_t refused = 0;
  if (below(8) == 0) fill(&items, sizeof items);
  for (int i = 0; i < 9 && refused == 0; i++) {
    wasm_items before = items;
    wasm_import import;
    wasm_export exported;
    wasm_naming naming;
    wasm_names names;
    uint32_t index;
    wasm_refusal refusal;
    int within = 1;
    switch (what) {
      case 0:
        refused = wasm_next_import(bytes, length, &items, &import, &refusal);
        if (refused == 0) within = is_within(import.module, length) && is_within(import.name, length);
        break;
      case 1:
        refused = wasm_next_export(bytes, length, &items, &exported, &refusal);
        if (refused == 0) within = is_within(exported.name, length);
        break;
      case 2:
        refused = wasm_next_index(bytes, length, &items, &index, &refusal);
        break;
      case 3:
        refused = wasm_next_name(bytes, length, &items, &naming, &refusal);
        if (refused == 0) within = is_within(naming.name, length);
        break;
      default:
        refused = wasm_next_names(bytes, length, &items, &names, &refusal);
        if (refused == 0) within = is_within(names.range, length);
    }
    require(refused == 0 ? within && items.offset > before.offset : memcmp(&before, &items, sizeof items) == 0, "an item");
  }
}

static void try_parts(const uint8_t *bytes, size_t length) {
  wasm_parser parser, before;
  wasm_payload part, kept;
  wasm_refusal refusal;
  memset(&parser, 0, sizeof parser);
  if (below(4) == 0) {
    fill(&parser, sizeof parser);
    parser.position = below(length + 2);
  }
  parser.features = (uint32_t)below(WASM_FEATURES_ALL + 2);
  fill(&part, sizeof part);
  uint32_t refused = 0;
  for (int i = 0; i < 9 && refused == 0; i++) {
    before = parser;
    kept = part;
    refused = wasm_next_payload(bytes, length, &parser, &part, &refusal);
    int same = memcmp(&before, &parser, sizeof parser) == 0 && memcmp(&kept, &part, sizeof part) == 0;
    /* (the data may lack the end of a code section) */
    int whole = part.kind == WASM_PAYLOAD_CODE_SECTION || is_within(part.range, length);
    require(refused == 0 ? whole && is_within(part.name, length) : same, "wasm_next_payload");
    if (refused == 0) try_items(bytes, length, part.items);
  }
}

/* Arrays of length 0: all null, or none. */
typedef struct arrays {
  uint8_t *bytes;
  wasm_operator *operators;
  wasm_locals *locals;
  uint32_t *indices;
  wasm_type *types;
  wasm_handler *handlers;
} arrays;

enum { EMPTY_CALLS = 40 };

/* Makes each call that takes an array with arrays of length 0. Writes what the calls return, and how many there are. */
static int call_with(arrays it, uint32_t *returned) {
  wasm_reader reader, opened;
  wasm_operator op;
  wasm_value value;
  wasm_bodies bodies;
  wasm_body body;
  wasm_parser parser = {0};
  wasm_payload payload;
  wasm_items items = {0};
  wasm_names names;
  wasm_naming naming;
  wasm_refusal refusal = {0};
  uint8_t frame[1];
  size_t count;
  uint32_t index;
  uint64_t function;
  const uint32_t all = WASM_FEATURES_ALL;
  int at = 0;
  memset(&op, 0, sizeof op);
  memset(&bodies, 0, sizeof bodies);
  returned[at++] = wasm_open(it.bytes, 0, 0, all, it.bytes, 0, &reader, &refusal);
  returned[at++] = wasm_open_body(it.bytes, 0, 0, all, frame, 1, &reader, &refusal);
  returned[at++] = wasm_open(it.bytes, 0, 0, all, frame, 1, &opened, &refusal);
  reader = opened;
  returned[at++] = wasm_next(it.bytes, 0, frame, 1, &reader, &op, &refusal);
  returned[at++] = wasm_next_plain(it.bytes, 0, frame, 1, &reader, &op, &refusal);
  returned[at++] = wasm_read(it.bytes, 0, frame, 1, &reader, it.operators, 0, &count, &refusal);
  returned[at++] = wasm_finish(it.bytes, 0, it.bytes, 0, &reader, &refusal);
  memset(&reader, 0, sizeof reader);
  returned[at++] = wasm_read_value(it.bytes, 0, &reader, WASM_VALUE_BYTES, 0, &value, &refusal);
  returned[at++] = wasm_read_body(it.bytes, 0, 0, all, it.operators, 0, &count, &refusal);
  returned[at++] = wasm_br_table_targets(it.bytes, 0, 0, all, 0, 0, it.indices, 0, &count, &refusal);
  returned[at++] = wasm_select_types(it.bytes, 0, 0, all, 0, 0, it.types, 0, &count, &refusal);
  returned[at++] = wasm_try_table_catches(it.bytes, 0, 0, all, 0, 0, it.handlers, 0, &count, &refusal);
  returned[at++] = wasm_resume_handlers(it.bytes, 0, 0, all, 0, 0, it.handlers, 0, &count, &refusal);
  returned[at++] = wasm_operator_text(it.bytes, 0, 0, all, 0, it.bytes, 0, &count, &refusal);
  returned[at++] = wasm_operator_text_name(it.bytes, 0, 0, all, 0, it.bytes, 0, &count, &refusal);
  returned[at++] = wasm_encode_operator(&op, it.bytes, 0, 0, all, it.bytes, 0, &count, &refusal);
  returned[at++] = wasm_encode_locals(it.locals, 0, it.bytes, 0, &count, &refusal);
  returned[at++] = wasm_encode_body(it.locals, 0, it.bytes, 0, it.bytes, 0, &count, &refusal);
  returned[at++] = wasm_encode_section(10, 0, it.bytes, 0, it.bytes, 0, &count, &refusal);
  returned[at++] = wasm_open_bodies(it.bytes, 0, &bodies, &refusal);
  returned[at++] = wasm_next_body(it.bytes, 0, &bodies, &body, &refusal);
  returned[at++] = wasm_function_name(it.bytes, 0, 0, it.bytes, 0, &count, &refusal);
  returned[at++] = wasm_next_payload(it.bytes, 0, &parser, &payload, &refusal);
  returned[at++] = wasm_next_index(it.bytes, 0, &items, &index, &refusal);
  returned[at++] = wasm_next_names(it.bytes, 0, &items, &names, &refusal);
  returned[at++] = wasm_next_name(it.bytes, 0, &items, &naming, &refusal);
  returned[at++] = wasm_validate_module(it.bytes, 0, all, &function, it.bytes, 0, &count, &refusal);
  returned[at++] = (uint32_t)wasm_refusal_text(&refusal, it.bytes, 0);
  returned[at++] = (uint32_t)wasm_operator_name(&op, it.bytes, 0);
  return at;
}

static void try_empty(void) {
  uint8_t byte;
  wasm_operator op;
  wasm_locals locals;
  uint32_t index;
  wasm_type type;
  wasm_handler handler;
  uint32_t returned[2][EMPTY_CALLS];
  arrays none = {NULL, NULL, NULL, NULL, NULL, NULL}, some = {&byte, &op, &locals, &index, &type, &handler};
  int count = call_with(none, returned[0]);
  require(count == call_with(some, returned[1]), "calls with empty arrays");
  require(memcmp(returned[0], returned[1], (size_t)count * sizeof(uint32_t)) == 0, "a null array of length 0");
}

int main(int argc, char **argv) {
  if (argc < 3) {
    fprintf(stderr, "usage: random CALLS MODULE..\n");
    return 2;
  }
  unsigned long calls = strtoul(argv[1], NULL, 10);
  try_empty();
  for (unsigned long i = 0; i < calls; i++) {
    uint8_t bytes[LONGEST];
    FILE *file = fopen(argv[2 + below((uint64_t)argc - 2)], "rb");
    if (file == NULL) return 2;
    size_t length = fread(bytes, 1, sizeof bytes, file);
    fclose(file);
    for (uint64_t change = below(3); change > 0; change--) bytes[below(length)] = (uint8_t)below(256);
    if (below(4) == 0) length = (size_t)below(length + 1);
    try_bodies(bytes, length);
    try_texts(bytes, length);
    try_reader(bytes, length);
    try_encoding(bytes, length);
    try_locals(bytes, length);
    try_parts(bytes, length);
  }
  printf("%lu times each call on random bytes\n", calls);
  return 0;
}
