#!/bin/sh
# Builds the modules on which the machine is measured (docs/MEASURES.md) into a folder: sh tools/machine_modules.sh FOLDER
# It takes wat2wasm of wabt and clang with wasm-ld.
set -e
mkdir -p "$1"
cd "$1"

cat > sum.wat <<'END'
(module
  (func (export "run") (result i32) (local i32 i32)
    (local.set 0 (i32.const 20000000))
    (loop
      local.get 1
      local.get 0
      i32.add
      local.set 1
      local.get 0
      i32.const 1
      i32.sub
      local.tee 0
      br_if 0)
    local.get 1))
END

cat > bytes.wat <<'END'
(module
  (memory 1)
  (func (export "run") (result i32) (local i32 i32)
    (local.set 0 (i32.const 12000000))
    (loop
      local.get 0
      i32.const 65535
      i32.and
      local.get 0
      i32.const 65535
      i32.and
      i32.load8_u
      local.get 0
      i32.add
      i32.store8
      local.get 0
      i32.const 1
      i32.sub
      local.tee 0
      br_if 0)
    i32.const 17
    i32.load8_u))
END

cat > fib.wat <<'END'
(module
  (func $fib (param i32) (result i32)
    local.get 0
    i32.const 2
    i32.lt_u
    if (result i32)
      local.get 0
    else
      local.get 0
      i32.const 1
      i32.sub
      call $fib
      local.get 0
      i32.const 2
      i32.sub
      call $fib
      i32.add
    end)
  (func (export "run") (result i32)
    i32.const 31
    call $fib))
END

cat > indirect.wat <<'END'
(module
  (type $step (func (param i32) (result i32)))
  (table 2 funcref)
  (elem (i32.const 0) $more $turned)
  (func $more (type $step)
    local.get 0
    i32.const 1
    i32.add)
  (func $turned (type $step)
    local.get 0
    i32.const 3
    i32.xor)
  (func (export "run") (result i32) (local i32 i32)
    (local.set 0 (i32.const 8000000))
    (loop
      local.get 1
      local.get 0
      i32.const 1
      i32.and
      call_indirect (type $step)
      local.set 1
      local.get 0
      i32.const 1
      i32.sub
      local.tee 0
      br_if 0)
    local.get 1))
END

# The sum's loop, with that many instructions before and after it that are not run.
for count in 100 10000 1000000; do
  {
    echo '(module (func (export "run") (result i32) (local i32 i32) (local.set 0 (i32.const 20000000)) local.get 1 if'
    yes 'i32.const 1 drop' | head -n $((count / 4))
    echo 'end (loop local.get 1 local.get 0 i32.add local.set 1 local.get 0 i32.const 1 i32.sub local.tee 0 br_if 0) i32.const 0 if'
    yes 'i32.const 1 drop' | head -n $((count / 4))
    echo 'end local.get 1))'
  } > loop_$count.wat
done

cat > sieve.c <<'END'
static unsigned char composite[1000000];
int run(void) {
  int total = 0;
  for (int turn = 0; turn < 3; turn++) {
    for (int i = 0; i < 1000000; i++) composite[i] = 0;
    int count = 0;
    for (int i = 2; i < 1000000; i++) {
      if (composite[i]) continue;
      count++;
      for (int j = i + i; j < 1000000; j += i) composite[j] = 1;
    }
    total += count;
  }
  return total;
}
END

cat > sha256.c <<'END'
typedef unsigned int word;
static const word K[64] = {
0x428a2f98,0x71374491,0xb5c0fbcf,0xe9b5dba5,0x3956c25b,0x59f111f1,0x923f82a4,0xab1c5ed5,0xd807aa98,0x12835b01,0x243185be,0x550c7dc3,0x72be5d74,0x80deb1fe,0x9bdc06a7,0xc19bf174,
0xe49b69c1,0xefbe4786,0x0fc19dc6,0x240ca1cc,0x2de92c6f,0x4a7484aa,0x5cb0a9dc,0x76f988da,0x983e5152,0xa831c66d,0xb00327c8,0xbf597fc7,0xc6e00bf3,0xd5a79147,0x06ca6351,0x14292967,
0x27b70a85,0x2e1b2138,0x4d2c6dfc,0x53380d13,0x650a7354,0x766a0abb,0x81c2c92e,0x92722c85,0xa2bfe8a1,0xa81a664b,0xc24b8b70,0xc76c51a3,0xd192e819,0xd6990624,0xf40e3585,0x106aa070,
0x19a4c116,0x1e376c08,0x2748774c,0x34b0bcb5,0x391c0cb3,0x4ed8aa4a,0x5b9cca4f,0x682e6ff3,0x748f82ee,0x78a5636f,0x84c87814,0x8cc70208,0x90befffa,0xa4506ceb,0xbef9a3f7,0xc67178f2};
static word H[8] = {0x6a09e667,0xbb67ae85,0x3c6ef372,0xa54ff53a,0x510e527f,0x9b05688c,0x1f83d9ab,0x5be0cd19};
static unsigned char block[64];
#define R(x,n) (((x)>>(n))|((x)<<(32-(n))))
static void compress(void) {
  word w[64], a=H[0],b=H[1],c=H[2],d=H[3],e=H[4],f=H[5],g=H[6],h=H[7];
  for (int i=0;i<16;i++) w[i]=(word)block[4*i]<<24|(word)block[4*i+1]<<16|(word)block[4*i+2]<<8|block[4*i+3];
  for (int i=16;i<64;i++) { word s=R(w[i-15],7)^R(w[i-15],18)^(w[i-15]>>3), t=R(w[i-2],17)^R(w[i-2],19)^(w[i-2]>>10); w[i]=w[i-16]+s+w[i-7]+t; }
  for (int i=0;i<64;i++) {
    word s=R(e,6)^R(e,11)^R(e,25), ch=(e&f)^(~e&g), t1=h+s+ch+K[i]+w[i], s0=R(a,2)^R(a,13)^R(a,22), m=(a&b)^(a&c)^(b&c), t2=s0+m;
    h=g;g=f;f=e;e=d+t1;d=c;c=b;b=a;a=t1+t2;
  }
  H[0]+=a;H[1]+=b;H[2]+=c;H[3]+=d;H[4]+=e;H[5]+=f;H[6]+=g;H[7]+=h;
}
int run(void) {
  for (int n = 0; n < 12000; n++) { for (int i=0;i<64;i++) block[i]=(unsigned char)(i*7+n); compress(); }
  return (int)H[0];
}
END

cat > fib_c.c <<'END'
__attribute__((noinline)) unsigned fib(unsigned n) { return n < 2 ? n : fib(n - 1) + fib(n - 2); }
int run(void) { return (int)fib(33); }
END

cat > indirect_c.c <<'END'
typedef int (*step)(int);
static int a(int x) { return x + 1; }
static int b(int x) { return x ^ 3; }
static int c(int x) { return x * 5; }
static int d(int x) { return x - 7; }
step steps[4] = { a, b, c, d };
int run(void) { int x = 12345; for (int i = 0; i < 6000000; i++) x = steps[(x >> 3 ^ i) & 3](x); return x; }
END

for text in *.wat; do
  wat2wasm "$text" -o "${text%.wat}.wasm"
done
for source in *.c; do
  clang --target=wasm32 -O2 -fno-builtin -nostdlib -Wl,--no-entry -Wl,--export-all "$source" -o "${source%.c}.wasm"
done
