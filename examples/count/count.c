// How many words a text has: a library for a component without imports.
#include <stddef.h>
#include <stdint.h>

extern unsigned char __heap_base;
static unsigned char *next;

__attribute__((export_name("cabi_realloc"))) void *cabi_realloc(void *old, size_t old_size, size_t align, size_t size) {
  (void)old;
  (void)old_size;
  uintptr_t at = (uintptr_t)(next ? next : &__heap_base);
  at = (at + align - 1) & ~(uintptr_t)(align - 1);
  next = (unsigned char *)(at + size);
  while ((uintptr_t)next > __builtin_wasm_memory_size(0) * 65536u) {
    if (__builtin_wasm_memory_grow(0, 1) == (size_t)-1) __builtin_trap();
  }
  return (void *)at;
}

__attribute__((export_name("count-words"))) uint32_t count_words(const char *text, size_t length) {
  uint32_t words = 0;
  int inside = 0;
  for (size_t i = 0; i < length; i++) {
    int blank = text[i] == ' ' || text[i] == '\n' || text[i] == '\t';
    words += !blank && !inside;
    inside = !blank;
  }
  next = 0;
  return words;
}
