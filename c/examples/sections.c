/* sections < MODULE: lists what a module imports and exports. */
#include "wasm_operators.h"

#include <inttypes.h>
#include <stdio.h>

enum { CAPACITY = 1 << 24 };

static uint8_t bytes[CAPACITY];
static const char *const kinds[] = {"func", "table", "memory", "global", "tag"};

static void print_name(wasm_range name) {
  printf(" %.*s", (int)name.length, (const char *)bytes + name.offset);
}

/* Prints the imports or the exports of a section. Returns the number of the error after them. */
static uint32_t print_items(size_t length, wasm_payload *section, wasm_refusal *refusal) {
  wasm_import import;
  wasm_export exported;
  if (section->kind == WASM_PAYLOAD_IMPORT_SECTION) {
    while (wasm_next_import(bytes, length, &section->items, &import, refusal) == 0) {
      printf("import %s", kinds[import.ty.kind]);
      print_name(import.module);
      print_name(import.name);
      putchar('\n');
    }
  } else {
    while (wasm_next_export(bytes, length, &section->items, &exported, refusal) == 0) {
      printf("export %s %" PRIu32, kinds[exported.kind], exported.index);
      print_name(exported.name);
      putchar('\n');
    }
  }
  return refusal->number;
}

int main(void) {
  size_t length = fread(bytes, 1, CAPACITY, stdin);
  wasm_parser parser = {0};
  wasm_payload part;
  wasm_refusal refusal;
  parser.features = WASM_FEATURES_ALL;
  while (wasm_next_payload(bytes, length, &parser, &part, &refusal) == 0) {
    if (part.kind != WASM_PAYLOAD_IMPORT_SECTION && part.kind != WASM_PAYLOAD_EXPORT_SECTION) continue;
    if (print_items(length, &part, &refusal) != WASM_REFUSED_NO_ITEM) break;
  }
  if (refusal.number == WASM_REFUSED_NO_ITEM) return 0;
  fprintf(stderr, "error %" PRIu32 " at %" PRIu64 "\n", refusal.number, refusal.offset);
  return 1;
}
