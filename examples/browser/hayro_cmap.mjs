// CMap files by the C library of hayro_cmap, built for wasm32. The calls and their statuses are those of hayro_cmap.h.

const OK = 0;
const REFUSED = 1;
const NO_ROOM = 6;
const ELSEWHERE = 0;
const GIVEN = 1;
const NO_BUDGET = 2n ** 64n - 1n;
// sizes in bytes where an address has four
const SIZES = { handle: 8, number: 4, fault: 80, range: 12 };
const PAGE = 65536;

/** The library. Its memory is that of the module; what it is handed is copied into buffers on pages of their own. */
export class Library {
  /** The library of the bytes of `hayro_cmap.wasm`. */
  static async load(bytes) {
    const { instance } = await WebAssembly.instantiate(bytes, {});
    return new Library(instance.exports);
  }

  constructor(calls) {
    this.calls = calls;
    this.buffers = new Map();
  }

  /** The address of the buffer of this name, with at least this many bytes. Older buffers of the name are left. */
  buffer(name, size) {
    const known = this.buffers.get(name);
    if (known && known.size >= size) return known.at;
    const pages = Math.max(1, Math.ceil(size / PAGE));
    const at = this.calls.memory.grow(pages) * PAGE;
    this.buffers.set(name, { at, size: pages * PAGE });
    return at;
  }

  /** The bytes at an address. */
  bytes(at, size) {
    return new Uint8Array(this.calls.memory.buffer, at, size);
  }

  /** The numbers of 32 bits at an address. */
  numbers(at, count) {
    return [...new Uint32Array(this.calls.memory.buffer, at, count)];
  }

  /** Copies bytes into the buffer of this name; its address. */
  copied(name, bytes) {
    const at = this.buffer(name, bytes.length);
    this.bytes(at, bytes.length).set(bytes);
    return at;
  }

  /**
   * What a call writes: `call(at, count, needed)` gets a buffer for `count` items, and is made again where there are
   * more. The address and the count, or null where there is no answer.
   */
  answer(size, call) {
    const needed = this.buffer("needed", SIZES.number);
    for (let count = 64; ; count = this.numbers(needed, 1)[0]) {
      const at = this.buffer("answer", count * size);
      const status = call(at, count, needed);
      if (status === OK) return { at, count: this.numbers(needed, 1)[0] };
      if (status !== NO_ROOM) return null;
    }
  }

  /** A text that a call writes in UTF-8, or null. */
  text(call) {
    const answer = this.answer(1, call);
    return answer && new TextDecoder().decode(this.bytes(answer.at, answer.count));
  }

  /** The ranges that a call writes, each of three numbers; none where there is no answer. */
  ranges(call) {
    const answer = this.answer(SIZES.range, call);
    const numbers = answer ? this.numbers(answer.at, (answer.count * SIZES.range) / SIZES.number) : [];
    return Array.from({ length: numbers.length / 3 }, (_, i) => numbers.slice(3 * i, 3 * i + 3));
  }

  /** The version of the library. */
  version() {
    return this.text((...to) => this.calls.hayro_cmap_version(...to));
  }
}

/** The map of a file that is read past its faults, until `free`. One file is read at a time. */
export class CMap {
  /**
   * The map of a file over the files that it uses. `get` is awaited with each name, and gives the bytes of the file, or
   * null if there is none. Each file is asked for once, and none after a fault, whose message is that of the error.
   */
  static async load(library, bytes, get) {
    const map = new CMap(library, new Uint8Array());
    await map.supply(library.calls.hayro_cmap_load, bytes, get);
    const [status, fault] = map.finish();
    if (status === REFUSED) throw new Error(map.message(fault));
    expectMemory(status);
    return map;
  }

  /** The same past the faults of the files: `get` is awaited after a fault, too. */
  static async salvage(library, bytes, get) {
    const map = new CMap(library, new Uint8Array());
    await map.supply(library.calls.hayro_cmap_load_past_faults, bytes, get);
    map.faults = map.told((...to) => map.calls.hayro_cmap_found_faults(map.loader, ...to));
    expectMemory(map.finish()[0]);
    return map;
  }

  constructor(library, bytes) {
    const at = library.buffer("handle", 4 * SIZES.handle);
    library.bytes(at, 4 * SIZES.handle).fill(0);
    const [bundle, loader] = [1, 2].map((index) => at + index * SIZES.handle);
    Object.assign(this, { library, calls: library.calls, at, bundle, loader, declared: {} });
    const data = library.copied("file", bytes);
    const file = [at, data, bytes.length, bundle, 0, 0, NO_BUDGET];
    this.faults = this.told((...to) => this.calls.hayro_cmap_salvage(...file, ...to));
  }

  /** Begins to load a file, and supplies all files that are wanted. */
  async supply(load, bytes, get) {
    const { library, calls, loader, bundle } = this;
    const wanted = () => library.text((...to) => calls.hayro_cmap_wanted(loader, ...to));
    expectMemory(load(loader, library.copied("file", bytes), bytes.length, bundle, NO_BUDGET));
    try {
      for (let name = wanted(); name !== null; name = wanted()) {
        const file = await get(name);
        const found = file ? GIVEN : ELSEWHERE;
        const data = library.copied("file", file ?? new Uint8Array());
        expectMemory(calls.hayro_cmap_supply(loader, bundle, found, data, file?.length ?? 0));
      }
    } catch (error) {
      calls.hayro_cmap_loader_free(loader);
      this.free();
      throw error;
    }
  }

  /** Takes the map from the loader, which is freed; the status, and the address of the fault. */
  finish() {
    const { library, calls } = this;
    const fault = library.buffer("faults", SIZES.fault);
    const to = [library.buffer("names", PAGE), PAGE, library.buffer("needed", SIZES.number)];
    const status = calls.hayro_cmap_finish(this.at, this.loader, fault, ...to);
    calls.hayro_cmap_loader_free(this.loader);
    return [status, fault];
  }

  /** The faults that a call writes, each with its `offset`, `message` and `names`. */
  told(call) {
    const { library } = this;
    const found = library.buffer("found", 2 * SIZES.number);
    for (let count = 16, size = 1024; ; ) {
      const faults = library.buffer("faults", count * SIZES.fault);
      const names = library.buffer("names", size);
      expectMemory(call(faults, count, found, names, size, found + SIZES.number));
      const [faultCount, nameBytes] = library.numbers(found, 2);
      if (faultCount <= count && nameBytes <= size) return this.toldAt(faults, faultCount, names);
      count = Math.max(count, faultCount);
      size = Math.max(size, nameBytes);
    }
  }

  /** The faults at an address, whose names stand one after another. */
  toldAt(faults, count, names) {
    return Array.from({ length: count }, (_, i) => {
      const at = faults + i * SIZES.fault;
      const [, , offset, nameCount, ...lengths] = this.library.numbers(at, SIZES.fault / SIZES.number);
      const told = { offset, message: this.message(at), names: [] };
      for (const length of lengths.slice(0, nameCount)) {
        told.names.push(new TextDecoder().decode(this.library.bytes(names, length)));
        names += length;
      }
      return told;
    });
  }

  /** What is wrong, in English. */
  message(fault) {
    return this.library.text((...to) => this.calls.hayro_cmap_message(fault, ...to));
  }

  /** What the file says of itself: `name`, `registry` or `ordering`; or null. */
  fact(kind) {
    return this.library.text((...to) => this.calls[`hayro_cmap_${kind}`](this.at, ...to));
  }

  /** Whether text is written vertically; null where the file doesn't say. */
  isVertical() {
    return [false, true, null][this.calls.hayro_cmap_writing_mode(this.at)];
  }

  /** The codespace ranges of the file: the lowest code, the highest, and how many bytes they have. */
  codespaces() {
    return this.library.ranges((...to) => this.calls.hayro_cmap_codespaces(this.at, 0, ...to));
  }

  /** The declarations of CIDs for codes of this many bytes: the first code, the last, and the CID of the first. */
  cidRanges(length) {
    return this.library.ranges((...to) => this.calls.hayro_cmap_cid_ranges(this.at, 0, length, ...to));
  }

  /** The declarations of texts: the first code, the last, and the units of UTF-16 of the first. */
  textRanges() {
    return this.library.ranges((...to) => this.calls.hayro_cmap_text_ranges(this.at, 0, ...to));
  }

  /** Whether the file declares a CID for a code: the call for CIDs gives the character of a text, too. */
  declaresCid(code, length) {
    this.declared[length] ??= [
      ...this.cidRanges(length),
      ...this.library.ranges((...to) => this.calls.hayro_cmap_notdef_ranges(this.at, 0, length, ...to)),
    ];
    return this.declared[length].some(([first, last]) => first <= code && code <= last);
  }

  /** The CID that the file declares for a code of this many bytes, or null. */
  cid(code, length) {
    if (!this.declaresCid(code, length)) return null;
    const cid = this.library.buffer("needed", SIZES.number);
    return this.calls.hayro_cmap_cid(this.at, code, length, cid) ? this.library.numbers(cid, 1)[0] : null;
  }

  /** The text of a code, or null. */
  text(code) {
    return this.library.text((...to) => this.calls.hayro_cmap_text(this.at, code, ...to));
  }

  /** Frees the map. */
  free() {
    this.calls.hayro_cmap_free(this.at);
  }
}

/** Throws if memory ran out. */
function expectMemory(status) {
  if (status !== OK) throw new Error("out of memory");
}

/** The codes that a file declares, in order, each with its `length` in bytes, `most` at most; how many there are. */
export function declaredCodes(map, most) {
  const codes = [];
  let count = 0;
  let before = { length: 0, last: -1 };
  for (const { first, last, length } of declarations(map)) {
    const start = length === before.length ? Math.max(first, before.last + 1) : first;
    if (start > last) continue;
    count += last - start + 1;
    for (let code = start; code <= last && codes.length < most; code++) codes.push({ code, length });
    before = { length, last };
  }
  return { codes, count };
}

/** The declarations of CIDs and of texts, by the lengths and the numbers of their first codes. */
function declarations(map) {
  const spaces = map.codespaces();
  const texts = map.textRanges().map(([first, last]) => ({ first, last, length: lengthOf(first, spaces) }));
  const cids = [1, 2, 3, 4].flatMap((length) => map.cidRanges(length).map(([first, last]) => ({ first, last, length })));
  return [...cids, ...texts].sort((a, b) => a.length - b.length || a.first - b.first);
}

/** The length of a code of a text: that of the first codespace range with it, else the least that has its number. */
function lengthOf(code, spaces) {
  const at = (number, byte) => Math.floor(number / 256 ** byte) % 256;
  const holds = ([low, high, length]) =>
    code < 256 ** length &&
    [0, 1, 2, 3].slice(0, length).every((i) => at(low, i) <= at(code, i) && at(code, i) <= at(high, i));
  const space = spaces.find(holds);
  return space ? space[2] : [1, 2, 3, 4].find((length) => code < 256 ** length);
}
