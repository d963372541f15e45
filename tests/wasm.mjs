// node tests/wasm.mjs FILE: calls every export of locator.wasm (tools/library --shared --target wasm32) as a page
// would: memory is lent from locator_lent, counts are numbers, and a result of several numbers comes through a
// pointer that is the first word. Expects known answers (docs/RULES.md section 10 and the header).
import assert from "node:assert/strict";
import { readFile } from "node:fs/promises";

const { instance } = await WebAssembly.instantiate(await readFile(process.argv[2]), {});
const call = instance.exports;
const room = call.locator_lent();
const words = (at, n) => [...new Uint16Array(call.memory.buffer, at, n)];
const bytes = (at, n) => [...new Uint8Array(call.memory.buffer, at, n)];
// The result stands at the front of the room, and what is lent behind it.
const RESULT = room, FIRST = room + 64, SECOND = room + 8192, THIRD = room + 16384;
// The sizes of include/locator.h.
const SLOTS = 196, STORED_SLOTS = 100, ROOTS = 64, COEFFICIENTS = 65, RECORD = 135;
const zeros = (n) => new Array(n).fill(0);
const lend = (at, list) => (new Uint16Array(call.memory.buffer, at, list.length).set(list), at);
const lend_bytes = (at, list) => (new Uint8Array(call.memory.buffer, at, list.length).set(list), at);
const called = new Set(["begin", "salvage"]); // whose results come otherwise
// gives(n, NAME, WORDS): the n numbers of its result
const gives = (n, name, ...rest) => (called.add(name), call[`locator_${name}`](RESULT, ...rest), words(RESULT, n));

assert.deepEqual(gives(2, "product", 4, 7, 9), [0, 10]);
assert.deepEqual(gives(2, "product", 5, 1, 1), [1, 0]);
assert.deepEqual(gives(2, "inverse", 4, 0), [13, 0]);
assert.deepEqual(gives(2, "position", 4, 2, 1), [0, 14]);
assert.deepEqual(gives(5, "quadratic", 4, 1, 6), [0, 2, 2, 3, 0]);
lend(FIRST, [6, 7, 0, 1]);
assert.deepEqual(gives(3, "solve", 4, FIRST, 4, 1, SECOND, ROOTS, THIRD, ROOTS), [0, 3, 4]);
assert.deepEqual([words(SECOND, 3), words(THIRD, 3)], [[1, 2, 3], [1, 1, 1]]);
assert.deepEqual(gives(3, "search", 4, FIRST, 4, SECOND, ROOTS, THIRD, ROOTS), [0, 3, 0]);
assert.equal(call.locator_begin(4, FIRST, 4, 1, SECOND, SLOTS), 0);
const begun = words(SECOND, 10);
assert.deepEqual(begun, [4, 1, 1, 0, 0, 3, 6, 7, 0, 0]);
for (const slots of [SLOTS, STORED_SLOTS]) {
  lend(SECOND, [...begun, ...zeros(slots - begun.length)]);
  let steps = 0;
  while (gives(2, "step", SECOND, slots)[1] === 0) steps++;
  assert.equal(steps, 4);
  assert.deepEqual(gives(3, "finish", SECOND, slots, THIRD, ROOTS), [0, 3, 0]);
  assert.deepEqual(gives(3, "finish", SECOND, slots, THIRD, ROOTS - 1), [7, 0, 0]);
}
for (const slots of [99, STORED_SLOTS, 101, 195, 197]) {
  assert.equal(call.locator_begin(4, FIRST, 4, 1, SECOND, slots), 7);
}
lend(FIRST, [1, 1, 0, 0]);
assert.deepEqual(gives(3, "affine", 4, FIRST, 4, 6, SECOND, 2048), [0, 2, 1]);
lend_bytes(FIRST, [9, ...zeros(255)]);
assert.deepEqual(gives(2, "correct", 2, FIRST, 256), [0, 2]);
assert.ok(bytes(FIRST, 256).every((byte) => byte === 0));
lend_bytes(FIRST, [255, 1, ...zeros(254)]);
assert.deepEqual(gives(2, "encode", 1, FIRST, 256), [0, 11]);
assert.ok(bytes(FIRST, 256).every((byte) => byte === 0));
lend(FIRST, [6, 7, 0, 1]);
lend(SECOND, [1, 2, 3]);
lend(THIRD, [1, 1, 1, 0]);
const claim = (v) => gives(2, "check", 4, FIRST, 4, SECOND, 3, THIRD, 3, THIRD, 1, THIRD, 1, v, 1);
assert.deepEqual([claim(THIRD + 6), claim(FIRST)], [[0, 1], [0, 1]]);
assert.deepEqual(gives(2, "check", 4, FIRST, 4, SECOND, 2, THIRD, 2, THIRD, 1, THIRD, 1, THIRD + 6, 1), [0, 0]);
const polynomials = [0, 1, 2].flatMap((k) => [THIRD + 2 * COEFFICIENTS * k, COEFFICIENTS]);
const rooms = [SECOND, ROOTS, SECOND + 2 * ROOTS, ROOTS, ...polynomials];
assert.deepEqual(gives(2, "prove", 4, FIRST, 4, ...rooms), [0, 3]);
assert.deepEqual([words(SECOND, 3), words(SECOND + 2 * ROOTS, 3)], [[1, 2, 3], [1, 1, 1]]);
const one = [1, ...zeros(COEFFICIENTS - 1)];
assert.deepEqual(words(THIRD, 3 * COEFFICIENTS), [...one, ...one, ...zeros(COEFFICIENTS)]);
lend(FIRST, [1, 2, 3]);
assert.deepEqual(gives(2, "write", 4, 1, FIRST, 3, SECOND, RECORD), [0, 13]);
assert.deepEqual(bytes(SECOND, 13), [0x4c, 0x52, 4, 1, 4, 6, 0, 7, 0, 0, 0, 1, 0]);
call.locator_salvage(RESULT, SECOND, 14, THIRD, 14);
assert.deepEqual([words(RESULT, 1)[0], new Uint32Array(call.memory.buffer, RESULT, 2)[1]], [0, 13]);
const named = Object.keys(call).filter((name) => name.startsWith("locator_") && name !== "locator_lent");
assert.deepEqual(named.sort(), [...called].map((name) => `locator_${name}`).sort());
console.log(`wasm: ${named.length} exported calls, each with known answers`);
