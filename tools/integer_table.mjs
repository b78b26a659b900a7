// Prints, for each numeric opcode on integers, a hash of what this engine answers at each pair of edge values.
// The table in crates/core_rows/src/integers.rt is its output: node tools/integer_table.mjs
const edges = [0n, 1n, 2n, 7n, 31n, 32n, 63n, 64n, 0x7Fn, 0x80n, 0xFFn, 0x8000n, 0x12345678n, 0x7FFFFFFFn, 0x80000000n, 0xFFFFFFFFn,
  0x100000000n, 0x123456789ABCDEF0n, 0x7FFFFFFFFFFFFFFFn, 0x8000000000000000n, 0xFFFFFFFFFFFFFFFFn];
const I32 = 0x7F, I64 = 0x7E;
const span = (first, last, params, from, to) => Array.from({ length: last - first + 1 }, (_, k) => ({ op: first + k, params, from, to }));
const table = [
  span(0x45, 0x45, 1, I32, I32), span(0x46, 0x4F, 2, I32, I32), span(0x50, 0x50, 1, I64, I32), span(0x51, 0x5A, 2, I64, I32),
  span(0x67, 0x69, 1, I32, I32), span(0x6A, 0x78, 2, I32, I32), span(0x79, 0x7B, 1, I64, I64), span(0x7C, 0x8A, 2, I64, I64),
  span(0xA7, 0xA7, 1, I64, I32), span(0xAC, 0xAD, 1, I32, I64), span(0xC0, 0xC1, 1, I32, I32), span(0xC2, 0xC4, 1, I64, I64)].flat();
const section = (id, bytes) => [id, bytes.length, ...bytes];
const compile = ({ op, params, from, to }) => {
  const body = [0, 0x20, 0, ...(params === 2 ? [0x20, 1] : []), op, 0x0B];
  const bytes = [0, 0x61, 0x73, 0x6D, 1, 0, 0, 0,
    ...section(1, [1, 0x60, params, ...Array(params).fill(from), 1, to]), ...section(3, [1, 0]),
    ...section(7, [1, 1, 0x66, 0, 0]), ...section(10, [1, body.length, ...body])];
  return new WebAssembly.Instance(new WebAssembly.Module(new Uint8Array(bytes))).exports.f;
};
const arg = (type, x) => type === I32 ? Number(BigInt.asIntN(32, x)) : BigInt.asIntN(64, x);
for (const row of table) {
  const f = compile(row);
  let hash = 0n;
  for (const a of edges) for (const b of edges) {
    let answer;
    try {
      const r = f(arg(row.from, a), arg(row.from, b));
      answer = BigInt.asUintN(row.to === I32 ? 32 : 64, BigInt(r)) ^ 1n;
    } catch (e) {
      answer = 0x5452_4150n;
    }
    hash = BigInt.asUintN(64, (hash ^ answer) * 0x100000001B3n);
  }
  console.log(`${row.op.toString(16)} => Some(${hash})`);
}
