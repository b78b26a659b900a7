// Greets people in a log, which is another component's.
#include <stddef.h>
#include <stdint.h>

extern unsigned char __heap_base;
static unsigned char *next;

__attribute__((export_name("cabi_realloc"))) void *cabi_realloc(void *old, size_t old_size, size_t align, size_t size) {
  (void)old;
  (void)old_size;
  uintptr_t at = (uintptr_t)(next ? next : &__heap_base);
  at = (at + align - 1) & ~(uintptr_t)(align - 1);
  next = (unsigned char *)(at + size);
  while ((uintptr_t)next > __builtin_wasm_memory_size(0) * 65536u) {
    if (__builtin_wasm_memory_grow(0, 1) == (size_t)-1) __builtin_trap();
  }
  return (void *)at;
}

__attribute__((import_module("example:log/log"), import_name("write"))) void log_line(const char *line, size_t length);

static const char hello[] = "Hello, ";
static char line[4096];

// a name that is too long is left out
__attribute__((export_name("greet"))) void greet(const char *name, size_t length) {
  size_t end = 0;
  for (; hello[end]; end++) line[end] = hello[end];
  if (length > sizeof line - end) length = 0;
  for (size_t i = 0; i < length; i++) line[end++] = name[i];
  log_line(line, end);
  next = 0;
}
