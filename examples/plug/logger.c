// A log for other components: each line goes to standard output, with an LF.
#include <stddef.h>
#include <stdint.h>

extern unsigned char __heap_base;
static unsigned char *next;

// a line is stored behind the program's own data, and forgotten once it is written
__attribute__((export_name("cabi_realloc"))) void *cabi_realloc(void *old, size_t old_size, size_t align, size_t size) {
  (void)old;
  (void)old_size;
  uintptr_t at = (uintptr_t)(next ? next : &__heap_base);
  at = (at + align - 1) & ~(uintptr_t)(align - 1);
  next = (unsigned char *)(at + size);
  while ((uintptr_t)next > __builtin_wasm_memory_size(0) * 65536u) {
    if (__builtin_wasm_memory_grow(0, 1) == (size_t)-1) __builtin_trap();
  }
  return (void *)at;
}

// the result of a write: which of its two cases it is, and more where it failed
typedef struct {
  uint8_t failed;
  uint32_t why[2];
} written;

#define IMPORT(interface, function) __attribute__((import_module(interface), import_name(function)))

IMPORT("wasi:cli/stdout@0.2.0", "get-stdout") int get_stdout(void);
IMPORT("wasi:io/streams@0.2.0", "[method]output-stream.blocking-write-and-flush") void write_all(int stream, const char *bytes, size_t length, written *came);
IMPORT("wasi:io/streams@0.2.0", "[resource-drop]output-stream") void drop_stream(int stream);

__attribute__((export_name("example:log/log#write"))) void log_line(const char *line, size_t length) {
  written came;
  int stream = get_stdout();
  write_all(stream, line, length, &came);
  if (!came.failed) write_all(stream, "\n", 1, &came);
  drop_stream(stream);
  next = 0;
}
