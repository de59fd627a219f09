/* payloads < MODULES: prints the parts of modules in hexadecimal, one a line, the verdict on each prefix and on each change
 * of one byte. The output is the stdout of crates/wasm_tests_payloads, which comes from wasmparser. */
#include "wasm_operators.h"

#include <inttypes.h>
#include <stdio.h>
#include <stdlib.h>
#include <string.h>

enum { LONGEST_LINE = 4096, LONGEST_TEXT = 256, LONGEST_ERROR = LONGEST_TEXT + 32 };

/* The number of parts before the end or an error, and the error's text. */
typedef struct verdict {
  size_t parts;
  char text[LONGEST_ERROR];
} verdict;

static const char *const sections[] = {
    "CustomSection", "TypeSection", "ImportSection", "FunctionSection", "TableSection", "MemorySection", "GlobalSection",
    "ExportSection", "StartSection", "ElementSection", "CodeSectionStart", "DataSection", "DataCountSection", "TagSection",
};

static size_t bytes_of(const char *hex, uint8_t *bytes) {
  size_t length = strlen(hex) / 2;
  for (size_t i = 0; i < length; i++) {
    unsigned byte = 0;
    if (sscanf(hex + 2 * i, "%2x", &byte) != 1) exit(2);
    bytes[i] = (uint8_t)byte;
  }
  return length;
}

/* Writes the error's offset and text; of the magic number and the version, only the first words. */
static void write_error(const wasm_refusal *refusal, char *out) {
  char text[LONGEST_TEXT];
  size_t length = wasm_refusal_text(refusal, (uint8_t *)text, sizeof text);
  if (length >= sizeof text) exit(2);
  text[length] = 0;
  const char *shown = text;
  if (refusal->number == WASM_REFUSED_BAD_MAGIC) shown = "magic header not detected";
  if (refusal->number == WASM_REFUSED_UNKNOWN_VERSION) shown = "unknown binary version";
  snprintf(out, LONGEST_ERROR, "0x%" PRIx64 " %s", refusal->offset, shown);
}

static wasm_parser start(void) {
  wasm_parser parser;
  memset(&parser, 0, sizeof parser);
  parser.features = WASM_FEATURES_ALL;
  return parser;
}

static verdict verdict_of(const uint8_t *bytes, size_t length) {
  verdict found = {0, "ok"};
  wasm_parser parser = start();
  wasm_payload part;
  wasm_refusal refusal;
  while (wasm_next_payload(bytes, length, &parser, &part, &refusal) == 0) found.parts++;
  if (refusal.number != WASM_REFUSED_NO_ITEM) {
    wasm_parser copy = parser;
    wasm_payload same = part;
    write_error(&refusal, found.text);
    /* an error changes nothing, and comes again */
    wasm_next_payload(bytes, length, &parser, &part, &refusal);
    if (memcmp(&parser, &copy, sizeof copy) != 0 || memcmp(&part, &same, sizeof same) != 0) exit(3);
  }
  return found;
}

static void print_part(const uint8_t *bytes, const wasm_parser *after, const wasm_payload *part) {
  uint64_t first = part->range.offset, end = first + part->range.length;
  switch (part->kind) {
    case WASM_PAYLOAD_VERSION:
      printf("  Version %" PRIu32 " %" PRIx64 "..%" PRIx64 "\n", part->number, first, end);
      break;
    case WASM_PAYLOAD_BODY:
      printf("  CodeSectionEntry %" PRIx64 "..%" PRIx64 "\n", first, end);
      break;
    case WASM_PAYLOAD_END:
      printf("  End %" PRIx64 "\n", first);
      break;
    case WASM_PAYLOAD_CUSTOM_SECTION:
      printf("  CustomSection %.*s", (int)part->name.length, (const char *)bytes + part->name.offset);
      printf(" %" PRIx64 "..%" PRIx64 " %" PRIx64 "\n", first, end, part->items.offset);
      break;
    case WASM_PAYLOAD_START_SECTION:
    case WASM_PAYLOAD_DATA_COUNT_SECTION:
    case WASM_PAYLOAD_CODE_SECTION:
      printf("  %s %" PRIu32 " %" PRIx64 "..%" PRIx64, sections[part->kind], part->number, first, end);
      if (part->kind == WASM_PAYLOAD_CODE_SECTION) printf(" %" PRIu32, after->size);
      putchar('\n');
      break;
    default:
      if (part->kind >= sizeof sections / sizeof sections[0]) {
        printf("  UnknownSection %" PRIu32 " %" PRIx64 "..%" PRIx64 "\n", part->kind, first, end);
      } else {
        printf("  %s %" PRIu32 " %" PRIx64 "..%" PRIx64 "\n", sections[part->kind], part->items.count, first, end);
      }
  }
}

static void print_range(wasm_range range) {
  printf(" %" PRIx64 "..%" PRIx64, range.offset, range.offset + range.length);
}

/* Prints the elements of a segment. */
static void print_elements(const uint8_t *bytes, size_t length, const wasm_element *segment) {
  wasm_items items = segment->items;
  wasm_refusal refusal;
  uint32_t index;
  wasm_range expression;
  printf(segment->form == 0 ? " functions" : " expressions");
  if (segment->form == 0) {
    while (wasm_next_index(bytes, length, &items, &index, &refusal) == 0) printf(" %" PRIu32, index);
  } else {
    while (wasm_next_expression(bytes, length, &items, &expression, &refusal) == 0) print_range(expression);
  }
  if (refusal.number != WASM_REFUSED_NO_ITEM) exit(3);
}

static void print_element(const uint8_t *bytes, size_t length, const wasm_element *segment, int is_written) {
  if (segment->kind == WASM_SEGMENT_PASSIVE) printf(" passive;");
  if (segment->kind == WASM_SEGMENT_DECLARATIVE) printf(" declared;");
  if (segment->kind == WASM_SEGMENT_ACTIVE) {
    printf(is_written ? " active Some(%" PRIu32 ")" : " active None", segment->table);
    print_range(segment->start);
    putchar(';');
  }
  print_elements(bytes, length, segment);
}

static void print_data(const wasm_data *segment) {
  if (segment->kind == WASM_SEGMENT_PASSIVE) {
    printf(" passive");
  } else {
    printf(" active %" PRIu32, segment->memory);
    print_range(segment->start);
  }
  printf("; %" PRIu64 " bytes", segment->bytes.length);
}

/* Reads an item of a section, and prints it if it holds constant expressions. Returns the number of the error. */
static uint32_t print_item(const uint8_t *bytes, size_t length, uint32_t kind, wasm_items *items, wasm_refusal *refusal) {
  wasm_table table;
  wasm_global global;
  wasm_element element;
  wasm_data segment;
  uint64_t first = items->offset;
  uint32_t refused;
  switch (kind) {
    case WASM_PAYLOAD_TABLE_SECTION:
      refused = wasm_next_table(bytes, length, items, &table, refusal);
      if (refused != 0) return refused;
      printf("    %" PRIx64, first);
      if (table.value.length == 0) printf(" null");
      if (table.value.length > 0) print_range(table.value);
      break;
    case WASM_PAYLOAD_GLOBAL_SECTION:
      refused = wasm_next_global(bytes, length, items, &global, refusal);
      if (refused != 0) return refused;
      printf("    %" PRIx64, first);
      print_range(global.value);
      break;
    case WASM_PAYLOAD_ELEMENT_SECTION:
      refused = wasm_next_element(bytes, length, items, &element, refusal);
      if (refused != 0) return refused;
      printf("    %" PRIx64, first);
      /* (flag 2 says that an active segment's table is written) */
      print_element(bytes, length, &element, bytes[first] / 2 % 2);
      break;
    case WASM_PAYLOAD_DATA_SECTION:
      refused = wasm_next_data(bytes, length, items, &segment, refusal);
      if (refused != 0) return refused;
      printf("    %" PRIx64, first);
      print_data(&segment);
      break;
    default:
      return refusal->number = WASM_REFUSED_NO_ITEM;
  }
  putchar('\n');
  return 0;
}

static void print_items(const uint8_t *bytes, size_t length, wasm_payload *part) {
  wasm_refusal refusal;
  while (print_item(bytes, length, part->kind, &part->items, &refusal) == 0) continue;
  if (refusal.number == WASM_REFUSED_NO_ITEM) return;
  char text[LONGEST_ERROR];
  write_error(&refusal, text);
  printf("    %s\n", text);
}

static void print_parts(const uint8_t *bytes, size_t length) {
  wasm_parser parser = start();
  wasm_payload part;
  wasm_refusal refusal;
  while (wasm_next_payload(bytes, length, &parser, &part, &refusal) == 0) {
    print_part(bytes, &parser, &part);
    print_items(bytes, length, &part);
  }
  if (refusal.number == WASM_REFUSED_NO_ITEM) return;
  char text[LONGEST_ERROR];
  write_error(&refusal, text);
  printf("  %s\n", text);
}

static void print_run(size_t place, unsigned first, unsigned last, const verdict *found) {
  printf("at %zx: %x..%x: %zu %s\n", place, first, last, found->parts, found->text);
}

/* Prints the verdicts if one byte is another: for each place, the runs of values with one verdict. */
static void print_changes(uint8_t *bytes, size_t length) {
  for (size_t place = 0; place < length; place++) {
    uint8_t byte = bytes[place];
    unsigned first = 0;
    verdict last = {0, ""};
    for (unsigned value = 0; value < 256; value++) {
      bytes[place] = (uint8_t)value;
      verdict found = verdict_of(bytes, length);
      if (value > 0 && (found.parts != last.parts || strcmp(found.text, last.text) != 0)) {
        print_run(place, first, value - 1, &last);
        first = value;
      }
      last = found;
    }
    print_run(place, first, 255, &last);
    bytes[place] = byte;
  }
}

int main(void) {
  static char line[LONGEST_LINE];
  static uint8_t bytes[LONGEST_LINE];
  while (fgets(line, sizeof line, stdin) != NULL) {
    line[strcspn(line, "\n")] = 0;
    if (line[0] == 0 || line[0] == '#') {
      puts(line);
      continue;
    }
    size_t length = bytes_of(line, bytes);
    print_parts(bytes, length);
    for (size_t end = 0; end < length; end++) {
      verdict found = verdict_of(bytes, end);
      printf("cut %zx: %zu %s\n", end, found.parts, found.text);
    }
    print_changes(bytes, length);
  }
  return 0;
}
