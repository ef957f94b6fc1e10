"use strict";
// Tests bench/wasm.c, as bench/wasm_test.c hands it over: numbers of 128 bits against BigInt, memory against a model, and the system. The file of the module is named.
const fs = require("fs"), assert = require("assert");

const given = new TextEncoder().encode("the standard input"), written = [], said = ["gossipmpi", "run", "--seed", "7"];
let place = 0, state = 12345;
const bytes = (at, length) => new Uint8Array(it.memory.buffer, at, length);
const env = {
  host_word: (number, at, room) => {
    const word = said[number] && Buffer.from(said[number]);
    if (word && word.length <= room) bytes(at, word.length).set(word);
    return word ? word.length : -1;
  },
  host_read: (at, room) => {
    const part = given.subarray(place, place + room);
    bytes(at, part.length).set(part);
    place += part.length;
    return part.length;
  },
  host_write: (stream, at, length) => written.push(`${stream}: ${Buffer.from(bytes(at, length))}`),
  host_is_terminal: () => 0,
  host_milliseconds: () => 61250.5,
  host_exit: (status) => { throw new Error("status " + status); },
};
const it = new WebAssembly.Instance(new WebAssembly.Module(fs.readFileSync(process.argv[2])), { env }).exports;

// The next number that is drawn, below this one.
function drawn(below) {
  state = (Math.imul(state, 1103515245) + 12345) >>> 0;
  return (state >>> 8) % below;
}

// A number of 128 bits: any, or one of the ends.
function wide() {
  const ends = [0n, 1n, 2n, (1n << 63n) - 1n, 1n << 63n, (1n << 64n) - 1n, 1n << 64n, (1n << 127n) - 1n, 1n << 127n, (1n << 128n) - 1n];
  if (drawn(3) === 0) return ends[drawn(ends.length)];
  return Array.from({ length: 8 }, () => BigInt(drawn(65536))).reduce((sum, part) => (sum << 16n) | part, 0n);
}

function numbers() {
  const view = () => new BigUint64Array(it.memory.buffer, it.given(), 6), low = (1n << 64n) - 1n;
  for (let round = 0; round < 20000; round++) {
    const x = wide(), what = round % 6, y = wide() || 1n, by = drawn(128);
    view().set([x & low, x >> 64n, y & low, y >> 64n]);
    it.calculate(what, by);
    const expected = [() => x * y, () => x << BigInt(by), () => x >> BigInt(by), () => BigInt.asIntN(128, x) >> BigInt(by), () => x / y, () => x % y][what]();
    assert.strictEqual(view()[4] | (view()[5] << 64n), BigInt.asUintN(128, expected), `${what} ${x} ${y} ${by}`);
  }
}

// Blocks that are taken, changed and given back at random: each keeps its bytes, and none lies on another one.
function memory() {
  const blocks = new Map();
  const write = (at, size) => { const seed = drawn(251); blocks.set(at, [size, seed]); bytes(at, size).forEach((_, i, all) => (all[i] = (seed + 7 * i) & 255)); };
  const holds = (at, size, seed) => bytes(at, size).forEach((byte, i) => assert.strictEqual(byte, (seed + 7 * i) & 255));
  for (let round = 0; round < 20000; round++) {
    const all = [...blocks.keys()], at = all[drawn(all.length || 1)], size = drawn(4) ? drawn(300) : drawn(9000);
    if (all.length < 50 || drawn(3) === 0) {
      const got = it.take(size);
      assert(got && got % 16 === 0);
      for (const [other, [long]] of blocks) assert(got + size <= other || other + long <= got, "blocks overlap");
      write(got, size);
      continue;
    }
    const [had, seed] = blocks.get(at);
    holds(at, had, seed);
    blocks.delete(at);
    if (drawn(2)) it.drop(at);
    else {
      const now = it.change(at, had, size + 1);
      holds(now, Math.min(had, size + 1), seed);
      write(now, size + 1);
    }
  }
  assert(it.memory.buffer.byteLength < 40e6, "memory isn't used again");
}

function limit() {
  it.limit_memory(it.memory.buffer.byteLength + (8 << 20));
  let count = 0;
  while (it.take(1 << 20)) assert(++count < 40);
  assert(count >= 4 && it.take(1) !== 0 && it.take(0xfffffff0) === 0);
  const at = it.take(100);
  bytes(at, 100).fill(9);
  assert.strictEqual(it.change(at, 100, 64 << 20), 0);
  assert(bytes(at, 100).every((byte) => byte === 9), "a block that can't grow is as it was");
}

function rest() {
  const at = it.take(256);
  bytes(at, 256).forEach((_, i, all) => (all[i] = i));
  it.move(at + 10, at, 100);
  assert(bytes(at + 10, 100).every((byte, i) => byte === i));
  it.move(at, at + 10, 100);
  it.fill(at + 200, 77, 5);
  assert.deepStrictEqual([...bytes(at + 198, 9)], [198, 199, 77, 77, 77, 77, 77, 205, 206]);
  assert.deepStrictEqual([it.word(0, 64), it.word(2, 6), it.word(2, 5), it.word(9, 64)], [9, 6, -2, -1]);
  assert.deepStrictEqual([it.get_text(12), it.put_text(1, 12), it.get_text(64), it.put_text(2, 6), it.get_text(64), it.put_text(3, 1)], [12, 12, 6, 6, 0, -1]);
  assert.deepStrictEqual(written, ["1: the standard", "2:  input"]);
  assert(it.lacks() === 1 && it.seconds() === 61.2505 && it.run() === 0);
  assert.throws(() => it.leave(6), /^Error: status 6$/);
}

numbers();
memory();
rest();
limit();
console.log("the support file is held: numbers of 128 bits, memory, and the system");
