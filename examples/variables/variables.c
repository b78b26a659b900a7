// Writes the environment's variables to standard output, a line each, by the interfaces of WASI 0.2.
#include <stddef.h>
#include <stdint.h>

extern unsigned char __heap_base;
static unsigned char *next;

// what the host answers with is stored behind what it answered before
__attribute__((export_name("cabi_realloc"))) void *cabi_realloc(void *old, size_t old_size, size_t align, size_t size) {
  (void)old;
  (void)old_size;
  uintptr_t at = (uintptr_t)(next ? next : &__heap_base);
  at = (at + align - 1) & ~(uintptr_t)(align - 1);
  next = (unsigned char *)(at + size);
  while ((uintptr_t)next > __builtin_wasm_memory_size(0) * 65536u) {
    if (__builtin_wasm_memory_grow(0, 1) == (size_t)-1) __builtin_trap();
  }
  return (void *)at;
}

typedef struct {
  const char *bytes;
  size_t length;
} text;

typedef struct {
  text name, value;
} variable;

typedef struct {
  const variable *items;
  size_t count;
} variables;

// the result of a write: which of its two cases it is, and more where it failed
typedef struct {
  uint8_t failed;
  uint32_t why[2];
} written;

#define IMPORT(interface, function) __attribute__((import_module(interface), import_name(function)))

IMPORT("wasi:cli/environment@0.2.0", "get-environment") void get_environment(variables *found);
IMPORT("wasi:cli/stdout@0.2.0", "get-stdout") int get_stdout(void);
IMPORT("wasi:io/streams@0.2.0", "[method]output-stream.blocking-write-and-flush") void write_all(int stream, const char *bytes, size_t length, written *came);
IMPORT("wasi:io/streams@0.2.0", "[resource-drop]output-stream") void drop_stream(int stream);

static char line[4096];

// NAME=VALUE and an LF, cut where they are long
static size_t line_of(const variable *it) {
  size_t length = 0;
  for (size_t i = 0; i < it->name.length && length < sizeof line - 2; i++) line[length++] = it->name.bytes[i];
  line[length++] = '=';
  for (size_t i = 0; i < it->value.length && length < sizeof line - 1; i++) line[length++] = it->value.bytes[i];
  line[length++] = '\n';
  return length;
}

__attribute__((export_name("wasi:cli/run@0.2.0#run"))) int run(void) {
  variables found;
  get_environment(&found);
  int stream = get_stdout();
  int failed = 0;
  for (size_t i = 0; i < found.count && !failed; i++) {
    written came;
    write_all(stream, line, line_of(&found.items[i]), &came);
    failed = came.failed;
  }
  drop_stream(stream);
  next = 0;
  return failed;
}
