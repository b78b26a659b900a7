#!/usr/bin/env bash
# Measures `run` beside wasm-interp: core steps, a million calls of the host, and 64 MB of writes (docs/MEASURES.md).
# usage: tools/run_measures.sh FOLDER [WASM-INTERP]: builds components, scripts and core modules in the folder, and prints the least
# processor time of three runs of each. A core module has the component's code, with the host's functions in it and empty.
# Needs the program, which ./wasi-virt builds, clang, wasm-ld and the linkers that come with Rust's toolchain.
set -euo pipefail

program="$(dirname "$(readlink -f "$0")")/../crates/virt_cli/out/virt_cli"
interpreter="${2:-wasm-interp}"
mkdir -p "$1"
cd "$1"
bin=$(rustc --print sysroot)/lib/rustlib/$(rustc -vV | sed -n 's/^host: //p')/bin

cat >spin.c <<'C'
#include <stdint.h>
// that many steps of xorshift
__attribute__((export_name("spin"))) uint32_t spin(uint32_t rounds) {
  uint32_t x = 2463534242u;
  for (uint32_t i = 0; i < rounds; i++) {
    x ^= x << 13;
    x ^= x >> 17;
    x ^= x << 5;
  }
  return x;
}
#ifdef ALONE
__attribute__((export_name("run"))) uint32_t run(void) { return spin(20000000); }
#endif
C
cat >spin.wit <<'W'
package test:measures;
world spins {
  export spin: func(rounds: u32) -> u32;
}
W
cat >calls.c <<'C'
#include <stdint.h>
#ifdef ALONE
static volatile uint32_t last;
__attribute__((noinline)) void log_number(uint32_t number) { last = number; }
#else
__attribute__((import_module("test:host/log"), import_name("log"))) void log_number(uint32_t number);
#endif
__attribute__((export_name("ask"))) void ask(uint32_t count) {
  for (uint32_t i = 0; i < count; i++) log_number(i);
}
#ifdef ALONE
__attribute__((export_name("run"))) void run(void) { ask(1000000); }
#endif
C
cat >calls.wit <<'W'
package test:measures;
world calls {
  import test:host/log;
  export ask: func(count: u32);
}
package test:host {
  interface log {
    log: func(number: u32);
  }
}
W
cat >writes.c <<'C'
#include <stddef.h>
#include <stdint.h>
typedef struct {
  uint8_t failed;
  uint32_t why[2];
} written;
#ifdef ALONE
__attribute__((noinline)) void host_write(const uint8_t *bytes, size_t length, volatile written *came) { came->failed = length == bytes[0]; }
#else
__attribute__((import_module("test:host/sink"), import_name("write"))) void host_write(const uint8_t *bytes, size_t length, volatile written *came);
#endif
static uint8_t block[4096];
__attribute__((export_name("fill"))) void fill(uint32_t count) {
  volatile written came;
  for (uint32_t i = 0; i < count; i++) {
    block[i % sizeof block] += 1;
    host_write(block, sizeof block, &came);
  }
}
#ifdef ALONE
__attribute__((export_name("run"))) void run(void) { fill(16384); }
#endif
C
cat >writes.wit <<'W'
package test:measures;
world writes {
  import test:host/sink;
  export fill: func(count: u32);
}
package test:host {
  interface sink {
    variant fault {
      failed(u32),
      closed,
    }
    write: func(bytes: list<u8>) -> result<_, fault>;
  }
}
W
for name in spin calls writes; do
  clang --target=wasm32 -O2 -c $name.c -o $name.o
  "$bin"/wasm-component-ld --wasm-ld-path "$bin"/gcc-ld/wasm-ld --component-type $name.wit --wasi-adapter none --no-entry $name.o -o $name.wasm
  clang --target=wasm32 -O2 -DALONE -c $name.c -o $name.alone.o
  wasm-ld --no-entry $name.alone.o -o $name.alone.wasm
done

python3 - "$program" "$interpreter" <<'P'
import os
import subprocess
import sys

PROGRAM, INTERPRETER = sys.argv[1:]


def script(name, answers, calls):
    with open(f"{name}.json", "w", encoding="utf-8") as file:
        file.write('{"answers":[' + ",".join(answers) + '],"calls":[' + calls + "]}\n")


def taken(words):
    """The least processor time of three runs, in seconds, and the greatest memory, in MB."""
    least, most = None, 0
    for _ in range(3):
        child = subprocess.Popen(words, stdout=subprocess.DEVNULL)
        _, status, used = os.wait4(child.pid, 0)
        child.returncode = os.waitstatus_to_exitcode(status)
        if child.returncode != 0:
            sys.exit(f"{' '.join(words)}: status {child.returncode}")
        time = used.ru_utime + used.ru_stime
        least = time if least is None else min(least, time)
        most = max(most, used.ru_maxrss // 1024)
    return f"{least:.2f} s, {most} MB"


script("spin", [], '["spin",[20000000]]')
script("calls", ["{}"] * 1000000, '["ask",[1000000]]')
script("writes", ['{"value":{"ok":null}}'] * 16384, '["fill",[16384]]')
# each script without its call: what reading and instantiating take
script("spin_none", [], "")
script("calls_none", ["{}"] * 1000000, "")
script("writes_none", ['{"value":{"ok":null}}'] * 16384, "")
for name in ["spin", "calls", "writes"]:
    run = [PROGRAM, "run", f"{name}.wasm", "--steps", "10000000000", "-s"]
    print(f"{name}: run {taken([*run, f'{name}.json'])}; without the call {taken([*run, f'{name}_none.json'])}; wasm-interp {taken([INTERPRETER, f'{name}.alone.wasm', '--run-all-exports'])}")
P
