// The library as WebAssembly, for tests/wasm.py: takes calls on standard input and answers them on standard output, through the page's own web/library.mjs.
//
//     node tests/wasm.mjs FILE.wasm
//
// A request is four bytes with the length of a line of JSON, that line, and the bytes of the slices. The answer to a call is eight bytes, ground and value,
// and the bytes of every slice afterwards; to anything else it is four bytes with a length, and JSON.
import { readFileSync, readSync, writeSync } from 'node:fs';
import { Library, Room } from '../web/library.mjs';

const TYPES = { B: Uint8Array, H: Uint16Array, I: Uint32Array, Q: BigUint64Array };
const MARK = 0xA5; // a byte of memory that nobody may change
const ROUND = 4096; // bytes above what is lent that are looked at
const GLOBALS = 6; // the number of that section
const wasm = readFileSync(process.argv[2]);
const [STACK] = leb(wasm, stackStart(wasm)); // its bytes, from address 0

/** The library, with an eye on the memory that is not lent: a call changes nothing of it but the stack. */
class Watched extends Library {
  call(name, ...given) {
    const places = this.layOut(given).map((at) => at - STACK), last = Math.max(this.start - STACK, ...places.filter(Number.isFinite));
    const around = Buffer.from(this.memory.buffer, STACK).subarray(0, last + ROUND + Math.max(0, ...given.map((each) => each.byteLength || 0)));
    around.fill(MARK, this.start - STACK);
    const before = Buffer.from(around), answer = super.call(name, ...given);
    given.forEach((each, k) => typeof each === 'number' || around.fill(MARK, places[k], places[k] + each.byteLength));
    if (before.compare(around) !== 0) throw new Error(`${name} writes to memory that it is not lent`);
    return answer;
  }
}

const { instance } = await WebAssembly.instantiate(wasm, {});
const library = new Watched(instance), plain = new Library(instance);

function taken(length) {
  const buffer = Buffer.alloc(length);
  for (let got = 0; got < length;) {
    const more = readSync(0, buffer, got, length - got, null);
    if (more === 0) process.exit(0);
    got += more;
  }
  return buffer;
}

function give(bytes) {
  for (let sent = 0; sent < bytes.length;) sent += writeSync(1, bytes, sent);
}

function giveJson(value) {
  const text = Buffer.from(JSON.stringify(value)), head = Buffer.alloc(4);
  head.writeUInt32LE(text.length);
  give(Buffer.concat([head, text]));
}

function slice([kind, length]) {
  const made = new TYPES[kind](length);
  taken(made.byteLength).copy(new Uint8Array(made.buffer));
  return made;
}

function answered({ name, given }) {
  const lent = given.map((each) => (typeof each === 'number' ? each : slice(each)));
  const { ground, value } = library.call(name, ...lent), head = Buffer.alloc(8);
  head.writeUInt32LE(value, 0);
  head.writeUInt32LE(ground, 4);
  give(Buffer.concat([head, ...lent.filter((each) => typeof each !== 'number').map((each) => Buffer.from(each.buffer))]));
}

/** Milliseconds of a call, the median of so many; slices past the first two are rooms. */
function timed({ name, given, rounds }) {
  const slices = given.filter((each) => typeof each !== 'number').map(slice);
  const rooms = slices.map((each, k) => (k < 2 ? each : new Room(each.constructor, each.length)));
  const lent = given.map((each) => (typeof each === 'number' ? each : rooms.shift()));
  const times = [];
  for (let k = 0; k < rounds; k += 1) {
    const start = performance.now();
    plain.call(name, ...lent);
    times.push(performance.now() - start);
  }
  giveJson(times.sort((a, b) => a - b)[rounds >> 1]);
}

/** How far down the stack a call reaches, in bytes. */
function stack({ name, given }) {
  const lent = given.map((each) => (typeof each === 'number' ? each : slice(each)));
  new Uint8Array(library.memory.buffer, 0, STACK).fill(MARK);
  library.call(name, ...lent);
  const lowest = new Uint8Array(library.memory.buffer, 0, STACK).findIndex((byte) => byte !== MARK);
  giveJson(lowest < 0 ? 0 : STACK - lowest);
}

// ---- the bytes of the module

/** A number of a module, and where it ends. */
function leb(bytes, at) {
  let value = 0, shift = 0;
  for (;; at += 1, shift += 7) {
    value |= (bytes[at] & 0x7F) << shift;
    if (!(bytes[at] & 0x80)) return [value, at + 1];
  }
}

/** Where the module has the start of its stack: its one global, an i32 that changes. */
function stackStart(bytes) {
  const global = sectionAt(bytes, GLOBALS), [count, type, changes, constant] = bytes.subarray(global);
  if (count !== 1 || type !== 0x7F || changes !== 1 || constant !== 0x41) throw new Error('not one global');
  return global + 4;
}

/** The module with a shorter stack, as a number of the same length. */
function withStack(start) {
  const bytes = new Uint8Array(wasm), from = stackStart(bytes), [, end] = leb(bytes, from);
  for (let at = from, left = start; at < end; at += 1, left >>= 7) bytes[at] = (left & 0x7F) | (at < end - 1 ? 0x80 : 0);
  return bytes;
}

function sectionAt(bytes, wanted) {
  for (let at = 8; at < bytes.length;) {
    const [length, start] = leb(bytes, at + 1);
    if (bytes[at] === wanted) return start;
    at = start + length;
  }
  throw new Error('no section ' + wanted);
}

/** A call with a stack of so many bytes: whether it traps, whether anything but the stack and what was lent changed, whether another call is refused. */
async function overflow({ name, given, start }) {
  const small = new Library((await WebAssembly.instantiate(withStack(start), {})).instance);
  const lent = given.map((each) => (typeof each === 'number' ? each : slice(each)));
  const before = new Uint8Array(small.memory.buffer).slice(start, small.start);
  const trapOf = (...call) => {
    try {
      return small.call(...call) && '';
    } catch (error) {
      return error instanceof WebAssembly.RuntimeError ? error.message : `not a trap: ${error}`;
    }
  };
  const trap = trapOf(name, ...lent);
  const after = new Uint8Array(small.memory.buffer).subarray(start, small.start);
  giveJson({ trap, kept: Buffer.compare(before, after) === 0, then: trapOf('ice40_lookup', 0, 0) });
}

async function shape() {
  const module = await WebAssembly.compile(wasm);
  giveJson({ imports: WebAssembly.Module.imports(module), exports: WebAssembly.Module.exports(module), stack: STACK });
}

const ACTIONS = { call: answered, time: timed, stack, overflow, shape };
for (;;) {
  const request = JSON.parse(taken(taken(4).readUInt32LE()).toString());
  await ACTIONS[request.do](request);
}
