// The library as WebAssembly, by the module of examples/browser: node wasm.mjs HAYRO_CMAP_WASM HAYRO_CMAP_MJS VERSION.

import assert from "node:assert/strict";
import { readFile } from "node:fs/promises";
import { pathToFileURL } from "node:url";

const [wasm, module, version] = process.argv.slice(2);
const { CMap, Library, declaredCodes } = await import(pathToFileURL(module));
const library = await Library.load(await readFile(wasm));

/** What is asked of the map of a text. */
function read(text) {
  const map = new CMap(library, new TextEncoder().encode(text));
  const { codes, count } = declaredCodes(map, 1000);
  const read = {
    facts: ["name", "registry", "ordering"].map((kind) => map.fact(kind)),
    isVertical: map.isVertical(),
    faults: map.faults,
    codes: codes.map(({ code, length }) => [code, length, map.cid(code, length), map.text(code)]),
    count,
  };
  map.free();
  return read;
}

const nothing = { facts: [null, null, null], isVertical: null, faults: [], codes: [], count: 0 };
const spaces = "2 begincodespacerange <00> <80> <8140> <9FFC> endcodespacerange\n";
const rows = [
  ["no bytes", "", nothing],
  [
    "what a file says of itself",
    "/CIDSystemInfo 3 dict dup begin /Registry (Adobe) def /Ordering (Japan1) def /Supplement 2 def end def\n" +
      "/CMapName /A-V def /WMode 1 def",
    { ...nothing, facts: ["A-V", "Adobe", "Japan1"], isVertical: true },
  ],
  [
    "CIDs of codes of one byte and of two",
    `${spaces}2 begincidrange <8140> <8141> 633 <41> <42> 34 endcidrange`,
    {
      ...nothing,
      codes: [[0x41, 1, 34, null], [0x42, 1, 35, null], [0x8140, 2, 633, null], [0x8141, 2, 634, null]],
      count: 4,
    },
  ],
  [
    "texts, of one character and of several",
    `${spaces}2 beginbfchar <41> <00660069> <8140> <D842DFB7> endbfchar`,
    { ...nothing, codes: [[0x41, 1, null, "fi"], [0x8140, 2, null, "\u{20BB7}"]], count: 2 },
  ],
  [
    "a fault",
    "1 begincidrange <20> <7E> x endcidrange",
    { ...nothing, faults: [{ offset: 27, message: "byte 27: a CID was expected", names: [] }] },
  ],
  [
    "a file that isn't there",
    "/Missing usecmap",
    { ...nothing, faults: [{ offset: 0, message: "no file has this name", names: ["Missing"] }] },
  ],
];
for (const [what, text, expected] of rows) assert.deepEqual(read(text), expected, what);
assert.equal(library.version(), version);

// as many codes as there are of two bytes, and a file that is larger than the first buffers
const all = "1 begincodespacerange <0000> <FFFF> endcodespacerange 1 begincidrange <0000> <FFFF> 0 endcidrange";
const many = all + " ".repeat(200000);
assert.equal(read(many).count, 65536);
assert.deepEqual(read(many).codes[999], [999, 2, 999, null]);

// ten files of which each uses the next one seven times, and the last one has a CID
const names = [..."ABCDEFGHIJ"];
const files = names.map((name, index) => [name, `/${names[index + 1]} usecmap `.repeat(index < 9 ? 7 : 0)]);
const bytes = Object.fromEntries(files.map(([name, text]) => [name, new TextEncoder().encode(text)]));
bytes.J = new TextEncoder().encode("1 begincidchar <41> 7 endcidchar");

/** The CID of the code 41 in a file, or why there is no map, and the names that are awaited. */
async function load(text, missing) {
  const asked = [];
  const get = async (name) => {
    asked.push(name);
    return name === missing ? null : bytes[name];
  };
  try {
    const map = await CMap.load(library, new TextEncoder().encode(text), get);
    const cid = library.buffer("needed", 4);
    assert.equal(library.calls.hayro_cmap_cid(map.at, 0x41, 1, cid), 1);
    map.free();
    return [library.numbers(cid, 1)[0], asked.join("")];
  } catch (error) {
    return [error.message, asked.join("")];
  }
}
assert.deepEqual(await load("/A usecmap"), [7, "ABCDEFGHIJ"]);
assert.deepEqual(await load("/A usecmap", "D"), ["no file has this name", "ABCD"]);
assert.deepEqual(await load("1 begincidrange <20> <7E> x endcidrange /A usecmap"), ["byte 27: a CID was expected", ""]);

/** The map of a file past its faults: the CID of the code 41, the faults, and the names that are awaited. */
async function salvage(text) {
  const asked = [];
  const get = async (name) => {
    asked.push(name);
    return bytes[name];
  };
  const map = await CMap.salvage(library, new TextEncoder().encode(text), get);
  const told = [map.cid(0x41, 1), map.faults.map((fault) => [...fault.names, fault.message].join(" ")), asked.join("")];
  map.free();
  return told;
}
bytes.X = new TextEncoder().encode("/Y usecmap 1 begincidchar <41> 5 <42> /x endcidchar");
const cid = "a CID was expected";
const missing = "no file has this name";
assert.deepEqual(await salvage("/A usecmap ) /B usecmap 1 begincidchar <41> 1 endcidchar"), [
  1, ["byte 11: a ) or > stands alone"], "ABCDEFGHIJ",
]);
assert.deepEqual(await salvage("/X usecmap /Z usecmap /X usecmap"), [
  null, [`X byte 40: ${cid}`, `X Y ${missing}`, `Z ${missing}`], "XYZ",
]);
// without a file the faults are those of the list of no files
const text = "/X usecmap ) 1 begincidchar <41> x endcidchar /Z usecmap";
const found = await CMap.salvage(library, new TextEncoder().encode(text), async () => null);
found.free();
assert.deepEqual(found.faults, read(text).faults);

// null is a status, as in nulls.c
assert.equal(library.calls.hayro_cmap_parse(0, 0, 0, 0, 0, 0, 0, 0n), 5);
assert.equal(library.calls.hayro_cmap_layers(0), 0);
library.calls.hayro_cmap_free(0);
console.log("ok");
