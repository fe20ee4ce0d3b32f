// The proved library as WebAssembly, and how memory is lent to it. include/ice40.h says what each call does.
//
// The stack and the constants of the library lie in the memory that it starts with. What is lent lies above, where each call lays it out anew.

/** A slice whose contents before and after a call do not matter: work room, and outputs that nobody reads. */
export class Room {
  constructor(Type, length) {
    this.length = length;
    this.byteLength = Type.BYTES_PER_ELEMENT * length;
  }
}

/** A slice that lies in the memory for good and is only read. */
class Kept {
  constructor(at, length) {
    this.at = at;
    this.length = length;
  }
}

const PAGE = 65536; // bytes
const ALIGNED = 8; // bytes of the longest number that is lent

function bytesOf(slice) {
  return new Uint8Array(slice.buffer, slice.byteOffset, slice.byteLength);
}

function aligned(length) {
  return Math.ceil(length / ALIGNED) * ALIGNED;
}

export class Library {
  constructor(instance) {
    this.calls = instance.exports;
    this.memory = instance.exports.memory;
    this.start = this.memory.buffer.byteLength;
    this.trapped = null;
  }

  /** Makes the memory reach up to an address. */
  reach(end) {
    const missing = end - this.memory.buffer.byteLength;
    if (missing > 0) this.memory.grow(Math.ceil(missing / PAGE));
  }

  /** Lends a typed array for all calls to come. It is for what calls only read, as the routing table. */
  keep(slice) {
    const kept = new Kept(this.start, slice.length);
    this.start += aligned(slice.byteLength);
    this.reach(this.start);
    new Uint8Array(this.memory.buffer).set(bytesOf(slice), kept.at);
    return kept;
  }

  /** Where each slice is to lie; undefined for a number. */
  layOut(given) {
    let end = this.start;
    const places = given.map((each) => {
      if (typeof each === 'number' || each instanceof Kept) return each.at;
      const at = end;
      end += aligned(each.byteLength);
      return at;
    });
    this.reach(end);
    return places;
  }

  /** The call itself. A trap leaves the stack as it stood then, so that nothing is asked after one. */
  asked(name, passed) {
    if (this.trapped) throw this.trapped;
    try {
      return this.calls[name](...passed);
    } catch (error) {
      this.trapped = error;
      throw error;
    }
  }

  /** Calls by name, with numbers and slices in the order of the header: typed arrays, rooms and what is kept. A typed array holds
   *  afterwards what the call left in it. */
  call(name, ...given) {
    const places = this.layOut(given);
    const lent = given.map((each, k) => [each, places[k]]).filter(([each]) => ArrayBuffer.isView(each));
    const memory = new Uint8Array(this.memory.buffer);
    for (const [slice, at] of lent) memory.set(bytesOf(slice), at);
    const passed = given.flatMap((each, k) => (places[k] === undefined ? [each] : [places[k], BigInt(each.length)]));
    const answer = BigInt.asUintN(64, this.asked(name, passed));
    for (const [slice, at] of lent) bytesOf(slice).set(memory.subarray(at, at + slice.byteLength));
    return { ground: Number(answer >> 32n), value: Number(answer & 0xFFFFFFFFn) };
  }
}

/** The library from the bytes of its WebAssembly, which imports nothing. */
export async function libraryFrom(wasm) {
  const { instance } = await WebAssembly.instantiate(wasm, {});
  return new Library(instance);
}
