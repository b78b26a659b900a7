#!/usr/bin/env bash
# Measures the reference host's virtual calls (docs/MEASURES.md): reads of an embedded file, polls of pollables that are ready, and
# openings in a folder of 60,000 files, with few live handles and with nearly 4,096 of each kind.
# usage: tools/host_measures.sh FOLDER [CALLS]: builds a component, a folder and scripts in FOLDER, and runs the component under a policy.
# For each kind of call: the least processor time of three runs, and of that the host's part by callgrind, in ten million calls.
# Needs the program, which ./wasi-virt builds, clang, the linkers that come with Rust's toolchain, and valgrind.
set -euo pipefail

program="${WASI_VIRT:-$(dirname "$(readlink -f "$0")")/../crates/virt_cli/out/virt_cli}"
calls="${2:-1000000}"
mkdir -p "$1"
cd "$1"
bin=$(rustc --print sysroot)/lib/rustlib/$(rustc -vV | sed -n 's/^host: //p')/bin

cat >virtual.c <<'C'
#include <stddef.h>
#include <stdint.h>

#define FROM(module, name) __attribute__((import_module(module), import_name(name)))
#define AS(name) __attribute__((export_name(name)))

typedef struct {
  uint8_t failed;
  uint32_t value[3];
} came;
typedef struct {
  uint32_t *at, length;
} list;

FROM("wasi:filesystem/preopens@0.2.0", "get-directories") void get_directories(volatile list *came);
FROM("wasi:filesystem/types@0.2.0", "[method]descriptor.open-at")
void open_at(uint32_t at, uint32_t follow, const char *path, size_t length, uint32_t flags, uint32_t rights, volatile came *came);
FROM("wasi:filesystem/types@0.2.0", "[method]descriptor.read") void read(uint32_t at, uint64_t length, uint64_t offset, volatile came *came);
FROM("wasi:filesystem/types@0.2.0", "[method]descriptor.read-via-stream") void read_via_stream(uint32_t at, uint64_t offset, volatile came *came);
FROM("wasi:filesystem/types@0.2.0", "[method]descriptor.read-directory") void read_directory(uint32_t at, volatile came *came);
FROM("wasi:filesystem/types@0.2.0", "[resource-drop]descriptor") void drop_descriptor(uint32_t at);
FROM("wasi:clocks/monotonic-clock@0.2.0", "subscribe-duration") uint32_t subscribe_duration(uint64_t wait);
FROM("wasi:cli/stdout@0.2.0", "get-stdout") uint32_t get_stdout(void);
FROM("wasi:io/poll@0.2.0", "poll") void poll(const uint32_t *of, size_t count, volatile list *came);

static uint8_t heap[1 << 20];
static size_t top;

AS("cabi_realloc") void *cabi_realloc(void *old, size_t old_size, size_t align, size_t size) {
  (void)old, (void)old_size;
  top = (top + align - 1) / align * align;
  uint8_t *place = heap + top;
  top += size;
  return place;
}

static uint32_t many, small, file, ready[4];

static uint32_t opened(uint32_t at, const char *path, size_t length) {
  volatile came it;
  open_at(at, 0, path, length, 0, 1, &it);
  if (it.failed) __builtin_trap();
  return it.value[0];
}

// the trees are `many`, with 60,000 files, and `small`
AS("prepare") void prepare(void) {
  volatile list roots;
  get_directories(&roots);
  many = roots.at[0];
  small = roots.at[3];
  file = opened(small, "f", 1);
  for (int i = 0; i < 4; i++) ready[i] = subscribe_duration(i);
}

// that many more live handles of each kind
AS("fill") void fill(uint32_t count) {
  volatile came it;
  for (uint32_t i = 0; i < count; i++) {
    opened(small, "f", 1);
    read_via_stream(file, 0, &it);
    read_directory(small, &it);
    subscribe_duration(0);
    get_stdout();
  }
}

AS("reads") void reads(uint32_t count) {
  volatile came it;
  for (uint32_t i = 0; i < count; i++) {
    top = 0;
    read(file, 16, i % 64, &it);
    if (it.failed) __builtin_trap();
  }
}

AS("polls") void polls(uint32_t count) {
  volatile list it;
  for (uint32_t i = 0; i < count; i++) {
    top = 0;
    poll(ready, 4, &it);
    if (it.length != 4) __builtin_trap();
  }
}

AS("opens") void opens(uint32_t count) {
  char name[5] = "00000";
  for (uint32_t i = 0; i < count; i++) {
    uint32_t rest = i * 7919u % 60000u;
    for (int d = 4; d >= 0; d--) {
      name[d] = '0' + rest % 10;
      rest /= 10;
    }
    drop_descriptor(opened(many, name, 5));
  }
}
C
cat >virtual.wit <<'W'
package test:measures;
world virtual {
  import wasi:io/poll@0.2.0;
  import wasi:io/streams@0.2.0;
  import wasi:cli/stdout@0.2.0;
  import wasi:clocks/monotonic-clock@0.2.0;
  import wasi:filesystem/types@0.2.0;
  import wasi:filesystem/preopens@0.2.0;
  export prepare: func();
  export fill: func(count: u32);
  export reads: func(count: u32);
  export polls: func(count: u32);
  export opens: func(count: u32);
}
package wasi:io@0.2.0 {
  interface poll {
    resource pollable;
    poll: func(in: list<borrow<pollable>>) -> list<u32>;
  }
  interface streams {
    resource input-stream;
    resource output-stream;
  }
}
package wasi:cli@0.2.0 {
  interface stdout {
    use wasi:io/streams@0.2.0.{output-stream};
    get-stdout: func() -> output-stream;
  }
}
package wasi:clocks@0.2.0 {
  interface monotonic-clock {
    use wasi:io/poll@0.2.0.{pollable};
    subscribe-duration: func(when: u64) -> pollable;
  }
}
package wasi:filesystem@0.2.0 {
  interface types {
    use wasi:io/streams@0.2.0.{input-stream};
    enum error-code {
      access, would-block, already, bad-descriptor, busy, deadlock, quota, exist, file-too-large, illegal-byte-sequence, in-progress,
      interrupted, invalid, io, is-directory, loop, too-many-links, message-size, name-too-long, no-device, no-entry, no-lock,
      insufficient-memory, insufficient-space, not-directory, not-empty, not-recoverable, unsupported, no-tty, no-such-device, overflow,
      not-permitted, pipe, read-only, invalid-seek, text-file-busy, cross-device,
    }
    flags path-flags { symlink-follow }
    flags open-flags { create, directory, exclusive, truncate }
    flags descriptor-flags { read, write, file-integrity-sync, data-integrity-sync, requested-write-sync, mutate-directory }
    resource directory-entry-stream;
    resource descriptor {
      read-via-stream: func(offset: u64) -> result<input-stream, error-code>;
      read: func(length: u64, offset: u64) -> result<tuple<list<u8>, bool>, error-code>;
      read-directory: func() -> result<directory-entry-stream, error-code>;
      open-at: func(path-flags: path-flags, path: string, open-flags: open-flags, %flags: descriptor-flags) -> result<descriptor, error-code>;
    }
  }
  interface preopens {
    use types.{descriptor};
    get-directories: func() -> list<tuple<descriptor, string>>;
  }
}
W
clang --target=wasm32 -O2 -c virtual.c -o virtual.o
"$bin"/wasm-component-ld --wasm-ld-path "$bin"/gcc-ld/wasm-ld --component-type virtual.wit --wasi-adapter none --no-entry virtual.o -o virtual.wasm
cat >virtual.toml <<'T'
slots = 4096
stdio.stdout = "ignore"
clocks.monotonic = 0

[[fs.tree]]
name = "/many"
mount = "many"

[[fs.tree]]
name = "/small"
files = { f = { text = "sixty-four bytes and some more, of which each read takes sixteen: no more." } }
T

python3 - "$program" "$calls" <<'P'
import os
import re
import subprocess
import sys

PROGRAM, CALLS = sys.argv[1], int(sys.argv[2])
FEW = 20000
os.makedirs("many", exist_ok=True)
for i in range(60000):
    with open(f"many/{i:05}", "w", encoding="utf-8"):
        pass


def words(name, calls):
    """A run of these calls."""
    with open(f"{name}.json", "w", encoding="utf-8") as file:
        file.write('{"answers":[],"calls":[["prepare",[]]' + "".join(f',["{f}",[{n}]]' for f, n in calls) + "]}\n")
    return [PROGRAM, "run", "virtual.wasm", "-p", "virtual.toml", "-s", f"{name}.json", "--steps", "10000000000"]


def taken(name, calls):
    """The least processor time of three runs, in seconds."""
    least = None
    for _ in range(3):
        child = subprocess.Popen(words(name, calls), stdout=subprocess.DEVNULL)
        _, status, used = os.wait4(child.pid, 0)
        child.returncode = os.waitstatus_to_exitcode(status)
        if child.returncode != 0:
            sys.exit(f"{name}: status {child.returncode}")
        time = used.ru_utime + used.ru_stime
        least = time if least is None else min(least, time)
    return least


def counted(name, calls):
    """Instructions of a run: all, those of the host's calls, and those of its drops."""
    out = f"callgrind.{name}"
    subprocess.run(["valgrind", "-q", "--tool=callgrind", f"--callgrind-out-file={out}", *words(name, calls)], check=True, stdout=subprocess.DEVNULL)
    listed = subprocess.run(["callgrind_annotate", "--inclusive=yes", "--threshold=100", "--show-percs=no", out], check=True, capture_output=True, text=True).stdout

    def count(pattern):
        found = re.findall(r"^\s*([\d,]+)\s.*" + pattern, listed, re.M)
        return max([int(number.replace(",", "")) for number in found], default=None)

    return count("PROGRAM TOTALS"), count("ReferencedHost::call"), count("ReferencedHost::drop_handle")


def measure(kind, live):
    """Seconds of the processor for ten million calls: of the whole program, and of the host alone."""
    name = f"{kind}_{live}"
    fill = [("fill", live)] if live else []
    none, some = taken(f"{name}_none", fill), taken(name, [*fill, (kind, CALLS)])
    each = (some - none) / CALLS
    before, after = counted(f"{name}_none", fill), counted(f"{name}_few", [*fill, (kind, FEW)])
    line = f"{kind}, {live} more handles of each kind: {1e7 * each:.2f} s with machine and Canonical ABI"
    if None in after[:2]:
        return line + "; the host's functions have no symbols"
    all_calls, in_host = after[0] - before[0], after[1] - (before[1] or 0)
    line += f"; the host alone {1e7 * each * in_host / all_calls:.2f} s, {in_host // FEW} instructions a call"
    if kind == "opens" and after[2] is not None:
        line += f", and {(after[2] - (before[2] or 0)) // FEW} a drop"
    return line


for kind in ["reads", "polls", "opens"]:
    for live in [0, 4080]:
        print(measure(kind, live), flush=True)
P
