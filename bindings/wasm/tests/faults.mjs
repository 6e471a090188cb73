// faults.mjs FOLDER: each error of the wrapper, each wrong type in the place of each argument, and what was closed or
// not loaded.
import assert from "node:assert/strict";
import { spawnSync } from "node:child_process";
import { readFileSync } from "node:fs";
import { runInNewContext } from "node:vm";
import { TEXT, countOfFaults, exportsOf, folder, hex, is, library, moduleFile, throwsFault, unhex } from "./common.mjs";
import { ACCOUNT, BLOCK, FILL, IV, KEY, KEYS, MESSAGE, ONE, OTHER, PAIR, PROTECTION } from "./calls.mjs";
import { SALTED, SECRET, SENT, SERIAL, allCalls, isNumbers } from "./calls.mjs";

let types = 0;

const throwsType = (run, what) => {
  assert.throws(run, (error) => {
    assert.equal(error.constructor, TypeError, `${what}: ${error}`);
    assert.match(error.message, TEXT);
    return true;
  }, what);
  types += 1;
};

/** A call that was made otherwise says how it is made. */
const saysHow = (run, form) => {
  throwsType(run, form);
  assert.throws(run, { message: `write ${form}: the data come first, the rest by name, and nothing else` });
};

// ---- Before and while loading

throwsFault(() => new library.Des(KEY.subarray(0, 8)), "NotLoaded");
throwsFault(() => library.dukptIsUsable(SERIAL), "NotLoaded");
throwsFault(() => library.DukptTerminal.fromState(new Uint8Array(346)), "NotLoaded");
const module = readFileSync(moduleFile);

async function refuses(name, ...words) {
  const isFault = (error) => error.name === name && error instanceof (library[name] ?? globalThis[name]);
  await assert.rejects(library.load(...words), isFault);
  throwsFault(() => library.dukptIsUsable(SERIAL), "NotLoaded");
}

for (const wrong of [null, "cukvashe_des.wasm", 5, {}, [], new Uint16Array(8), ...outside()]) await refuses("TypeError", wrong);
await refuses("ModuleMismatch", new Uint8Array());
await refuses("ModuleMismatch", module.subarray(0, module.length - 1));
// One bit of each 512th byte, and each bit of the first and last bytes.
for (let at = 0; at < module.length; at += at < 8 || at > module.length - 8 ? 1 : 512) {
  const other = Uint8Array.from(module);
  other[at] ^= 1 << (at % 8);
  await refuses("ModuleMismatch", other);
}
// An engine without a 64-bit memory refuses the module that has one by name, and one without WebAssembly both.
const { WebAssembly: ofEngine } = globalThis;
const { validate } = ofEngine;
ofEngine.validate = () => false;
await refuses("NotSupported", readFileSync(`${folder}/cukvashe_des.wasm`));
ofEngine.validate = validate;
delete globalThis.WebAssembly;
assert.equal(library.isSupported(), false);
await refuses("NotSupported");
globalThis.WebAssembly = ofEngine;
assert.equal(library.isSupported(), true);
// Without flags this Node loads the package, as package.json and INSTALL.md say.
const file = JSON.stringify(`${new URL(`${folder}/cukvashe_des.mjs`, "file:///")}`);
const load = `const { load } = await import(${file}); await load();`;
assert.equal(spawnSync(process.execPath, ["--input-type=module", "-e", load]).status, 0);
const description = JSON.parse(readFileSync(`${folder}/package.json`, "utf8"));
const [row] = readFileSync(new URL("../../../docs/INSTALL.md", import.meta.url), "utf8").match(/^\| JavaScript \|.*/m);
assert.equal(description.engines.node, `>=${Math.min(...row.match(/\d+/g))}`);
assert(Number(process.versions.node.split(".")[0]) >= Number(description.engines.node.slice(2)));

// Where the engine's stack ends while an array is looked at, that is not a wrong type.
const typedArray = Object.getPrototypeOf(Uint8Array.prototype);
const { at: elementAt } = typedArray;
typedArray.at = () => { throw new RangeError("Maximum call stack size exceeded"); };
const atItsEnd = await import(new URL(`${folder}/cukvashe_des.mjs?at_its_end`, "file:///"));
typedArray.at = elementAt;
await assert.rejects(atItsEnd.load(module), RangeError);

// A module that is changed while it is loaded is not the changed one.
const changing = Uint8Array.from(module);
const loading = library.load(changing);
changing.fill(0);
await loading;
await library.load(module.buffer.slice(module.byteOffset, module.byteOffset + module.length));
// Where sums can't be made, as on pages by http, the module is loaded as it is.
const { crypto } = globalThis;
Object.defineProperty(globalThis, "crypto", { value: undefined, configurable: true });
await library.load(module);
await assert.rejects(library.load(new Uint8Array(8)), WebAssembly.CompileError);
Object.defineProperty(globalThis, "crypto", { value: crypto, configurable: true });
await library.load();
assert.equal(library.dukptIsUsable(SERIAL), true);

// ---- Errors of each call

const CIPHERS = [[library.Des, 8], [library.TdesEde2, 16], [library.TdesEde3, 24]];
const CBC_MACS = [[library.CbcMacDes, 8], [library.CbcMacTdesEde2, 16], [library.CbcMacTdesEde3, 24]];
const PADDED = [...CBC_MACS, [library.RetailMacDes, 16]];
const CBC = ["encryptCbc", "decryptCbc"];
const CMACS = [[library.CmacTdesEde2, 16], [library.CmacTdesEde3, 24]];
const LENGTHS = Array.from({ length: 34 }, (_, length) => length);
const of = (length) => new Uint8Array(length).fill(0x5a);

for (const [Cipher, size] of CIPHERS) {
  assert.deepEqual([Cipher.keySize, Cipher.blockSize], [size, 8]);
  const cipher = new Cipher(KEY.subarray(0, size));
  for (const length of LENGTHS) {
    if (length !== 8) {
      const text = `an initialization vector has 8 bytes, not ${length}`;
      for (const call of CBC) throwsFault(() => cipher[call](of(8), { iv: of(length) }), "VectorLength", text);
    }
    if (length % 8 !== 0) {
      const text = `${length} bytes are not whole blocks of 8`;
      for (const call of ["encryptEcb", "decryptEcb"]) throwsFault(() => cipher[call](of(length)), "BlockLength", text);
      for (const call of CBC) throwsFault(() => cipher[call](of(length), { iv: IV }), "BlockLength", text);
    }
  }
  for (const call of ["encryptEcb", "decryptEcb", "encryptCbc", "decryptCbc"]) {
    const words = call.endsWith("Cbc") ? [{ iv: IV }] : [];
    is(cipher[call](new Uint8Array(), ...words), "");
  }
  // By habit of other modes: nothing may be taken for the data.
  throwsType(() => cipher.encryptEcb(IV, MESSAGE), "ECB with a vector");
  throwsType(() => cipher.decryptEcb(MESSAGE, IV), "ECB with a vector");
  for (const more of ["pkcs7", { padding: "pkcs7" }, IV, undefined]) {
    throwsType(() => new Cipher(KEY.subarray(0, size), more), "a cipher with more than a key");
  }
  // The vector first, as elsewhere, where data have its length; one that was forgotten; padding beside it.
  for (const call of CBC) {
    const wrong = [[IV, of(8)], [of(8), IV], [IV], [{ iv: IV }], [], [of(8), {}], [of(8), { iv: undefined }], [IV, of(8), "pkcs7"]];
    wrong.push([of(8), { IV }], [of(8), { iv: IV, padding: "pkcs7" }], [of(8), { iv: IV }, "pkcs7"], [of(8), { iv: IV }, undefined]);
    for (const words of wrong) saysHow(() => cipher[call](...words), `${call}(data, { iv })`);
    for (const iv of [null, "1234567890abcdef", [...IV], IV.buffer]) throwsType(() => cipher[call](of(8), { iv }), "a vector");
    throwsType(() => cipher[call]({ iv: IV }, { iv: IV }), "options for data");
  }
  for (const call of ["encryptCbcRecords", "decryptCbcRecords"]) {
    const records = (vectors, counts, blocks) => library[call](cipher, blocks, { vectors, counts });
    throwsFault(() => records(of(7), [1], IV), "VectorLength", "7 bytes are not whole vectors of 8");
    throwsFault(() => records(IV, [1], of(9)), "BlockLength", "9 bytes are not whole blocks of 8");
    throwsFault(() => records(IV, [], IV), "CountMismatch", "the numbers of vectors and counts differ");
    for (const counts of [[0], [2], [8], [Number.MAX_SAFE_INTEGER]]) {
      const text = "the counts do not add up to the number of blocks";
      throwsFault(() => records(IV, counts, IV), "CountMismatch", text);
    }
    throwsFault(() => records(IV, [-1], IV), "CountMismatch", "a count or a length is no number of 64 bits");
    throwsFault(() => records(IV, [2 ** 60], IV), "CountMismatch");
    is(records(new Uint8Array(), [], new Uint8Array()), "");
    const named = { vectors: IV, counts: [1] };
    const wrong = [[IV, [1], of(8)], [of(8), IV, [1]], [of(8)], [of(8), { vectors: IV }], [of(8), { counts: [1] }], [named]];
    wrong.push([of(8), { ...named, iv: IV }], [of(8), named, undefined], [of(8), { ...named, vectors: undefined }]);
    for (const words of wrong) saysHow(() => library[call](cipher, ...words), `${call}(cipher, blocks, { vectors, counts })`);
  }
}

// ---- Modes without padding: what stands before the rest, and how it is called, by name alone

const WITH_SEGMENT = "{ iv, segmentSize }), with the bits of a segment (by CFB alone PyCryptodome means 8, node:crypto 64)";
const IN_MODES = [
  ["Ctr", { counter: IV }, "{ counter })", "a counter block"], ["Ofb", { iv: IV }, "{ iv })", "an initialization vector"],
  ["Cfb", { iv: IV, segmentSize: 64 }, WITH_SEGMENT, "an initialization vector"],
];
for (const [Cipher, size] of CIPHERS) {
  const cipher = new Cipher(KEY.subarray(0, size));
  for (const [mode, named, form, what] of IN_MODES) {
    const vector = mode === "Ctr" ? "counter" : "iv";
    const calls = [`encrypt${mode}`, `decrypt${mode}`].map((name) => [name, (...words) => cipher[name](...words)]);
    for (const [name, call] of calls) {
      is(call(new Uint8Array(), named), "");
      const wrong = [[IV, of(8)], [of(8), IV], [IV], [named], [], [of(8), {}], [of(8), { ...named, [vector]: undefined }]];
      wrong.push([of(8), { ...named, padding: "pkcs7" }], [of(8), named, undefined], [of(8), { ...named, segment_size: 8 }]);
      if (mode === "Cfb") wrong.push([of(8), { iv: IV }], [of(8), { iv: IV, segmentSize: undefined }]);
      for (const words of wrong) saysHow(() => call(...words), `${name}(data, ${form}`);
      throwsType(() => call(named, named), "options for data");
    }
    const begin = (words) => new library[mode](cipher, ...words);
    for (const words of [[], [IV], [{}], [named, undefined], [{ ...named, padding: 1 }], [{ ...named, [vector]: undefined }]]) {
      const message = `write new ${mode}(cipher, ${form}: the cipher comes first, the rest by name, and nothing else`;
      assert.throws(() => begin(words), { name: "TypeError", message });
    }
    for (const wrong of [undefined, null, KEY, Cipher, new library.CmacTdesEde3(KEY), new library.Ofb(cipher, { iv: IV })]) {
      throwsType(() => new library[mode](wrong, named), "a stream of what is no cipher");
    }
    for (const [name, call] of [...calls.map(([name, call]) => [name, (words) => call(of(8), words)]), ["new", (words) => begin([words])]]) {
      for (const length of LENGTHS.filter((it) => it !== 8)) {
        throwsFault(() => call({ ...named, [vector]: of(length) }), "VectorLength", `${what} has 8 bytes, not ${length}`);
      }
      for (const wrong of [null, "1234567890abcdef", [...IV], IV.buffer]) throwsType(() => call({ ...named, [vector]: wrong }), name);
      for (const segmentSize of mode === "Cfb" ? [0, 2, 7, 9, 63, 65, 72, 128, -8, 8.5, NaN, Infinity, 2 ** 32 + 8] : []) {
        const text = "a segment has 1 bit, or 8, 16, 24, 32, 40, 48, 56 or 64";
        throwsFault(() => call({ ...named, segmentSize }), "SegmentSize", text);
      }
      for (const segmentSize of mode === "Cfb" ? [null, "8", 8n, true] : []) throwsType(() => call({ ...named, segmentSize }), name);
    }
    // It ends with its cipher, or by itself; the cipher stays.
    for (const closesCipher of [false, true]) {
      const [instance, bits] = [new Cipher(KEY.subarray(0, size)), { iv: IV, segmentSize: 1 }];
      const stream = mode === "Cfb" ? new library.Cfb(instance, bits) : new library[mode](instance, named);
      throwsType(() => stream.encrypt(), "no data");
      throwsType(() => stream.encrypt("text"), "a text");
      throwsType(() => stream.decrypt(IV, IV), "two pieces at once");
      throwsType(() => stream.copy(1), "a copy of something");
      (closesCipher ? instance : stream).close();
      const closed = [["encrypt", IV], ["decrypt", IV], ...(mode === "Ctr" ? [["seek", 3]] : mode === "Cfb" ? [["encryptBits", IV, 3]] : [])];
      for (const [call, ...words] of closed) throwsFault(() => stream[call](...words), "Closed", "the cipher, MAC or terminal was closed");
      if (closesCipher) throwsFault(() => new library[mode](instance, named), "Closed", "the cipher, MAC or terminal was closed");
      else instance.encryptEcb(IV);
    }
  }
  for (const wrong of [undefined, null, "3", true, IV]) {
    throwsType(() => new library.Ctr(cipher, { counter: IV }).seek(wrong), "a position");
    throwsType(() => new library.Cfb(cipher, { iv: IV, segmentSize: 1 }).encryptBits(IV, wrong), "a number of bits");
  }
  for (const bits of [-1, 0.5, NaN, 65, 2 ** 32, 2 ** 64]) {
    const stream = new library.Cfb(cipher, { iv: IV, segmentSize: 1 });
    throwsFault(() => stream.decryptBits(IV, bits), "DataLength", "the number of bits is a whole number from 0 to 64");
  }
  for (const segmentSize of [8, 64]) {
    const stream = new library.Cfb(cipher, { iv: IV, segmentSize });
    throwsFault(() => stream.encryptBits(IV, 3), "SegmentSize", "bits are taken with segments of 1 bit alone");
  }
}

for (const [Mac, size] of [...PADDED, ...CMACS]) {
  const padding = PADDED.some(([it]) => it === Mac) ? [2] : [];
  assert.deepEqual([Mac.keySize, Mac.digestSize], [size, 8]);
  const key = KEY.subarray(0, size);
  const mac = new Mac(key, ...padding, MESSAGE);
  for (const length of LENGTHS) {
    throwsFault(() => mac.verify(of(length)), "TagMismatch", "the tag is not that of the message");
    throwsFault(() => mac.verifyTruncatedLeft(of(length)), "TagMismatch", "the tag is not that of the message");
  }
  throwsType(() => new Mac(key, ...padding, MESSAGE, IV), "a MAC of two messages");
  throwsType(() => mac.update(IV, IV), "two pieces at once");
  throwsType(() => mac.update(IV, "hex"), "an encoding of a piece");
  throwsType(() => mac.digest("base64"), "an encoding that is not there");
  throwsType(() => mac.digest(8), "a length in the place of an encoding");
  const method = padding[0] ?? null;
  const many = (lengths, messages) => library.macs(Mac, key, method, lengths, messages);
  throwsFault(() => many([25, -1], MESSAGE), "CountMismatch");
  is(many([], new Uint8Array()), "");
  if (method === null) {
    throwsType(() => new Mac(key, 2), "CMAC with a padding method");
    for (const wrong of [1, 2, undefined]) {
      throwsType(() => library.macs(Mac, key, wrong, [24], MESSAGE), "CMAC with a padding method");
    }
  } else {
    for (const wrong of [0, 3, 1.5, NaN]) {
      throwsFault(() => new Mac(key, wrong), "PaddingMethod");
      throwsFault(() => library.macs(Mac, key, wrong, [24], MESSAGE), "PaddingMethod");
    }
    for (const wrong of [undefined, null, "2", true, 2n, MESSAGE]) {
      throwsType(() => new Mac(key, wrong), "a padding method");
      throwsType(() => library.macsEach(Mac, key, wrong, [24], MESSAGE), "a padding method");
    }
  }
  // What was closed has no key any more; a copy does.
  const copy = mac.copy();
  mac.close();
  mac.close();
  for (const [call, ...words] of [["update", IV], ["digest"], ["verify", IV], ["verifyTruncatedLeft", IV], ["copy"]]) {
    throwsFault(() => mac[call](...words), "Closed", "the cipher, MAC or terminal was closed");
  }
  assert.equal(copy.digest("hex"), new Mac(key, ...padding, MESSAGE).digest("hex"));
}
for (const [Cipher, size] of CIPHERS) {
  const cipher = new Cipher(KEY.subarray(0, size));
  if (Symbol.dispose === undefined) cipher.close();
  else cipher[Symbol.dispose]();
  for (const call of ["encryptEcb", "decryptEcb"]) throwsFault(() => cipher[call](IV), "Closed", "the cipher, MAC or terminal was closed");
  for (const call of CBC) throwsFault(() => cipher[call](IV, { iv: IV }), "Closed", "the cipher, MAC or terminal was closed");
  throwsFault(() => library.encryptCbcRecords(cipher, IV, { vectors: IV, counts: [1] }), "Closed", "the cipher, MAC or terminal was closed");
}

// ---- Numbers that are whole in no integer of the module, and what the calls of bindings/known_calls.txt can't say

const TABLE = new library.DecimalTable("0123456789012345");
for (const wrong of [1.5, NaN, 0.5, 2 ** 32 + 1, Infinity]) {
  throwsFault(() => library.pvv(PAIR, ACCOUNT, wrong, "1234"), "KeyIndex");
  throwsFault(() => library.pvvVerify(PAIR, ACCOUNT, wrong, "1234", "1894"), "KeyIndex");
  throwsFault(() => library.naturalPin(PAIR, TABLE, IV, 3 + wrong), "PinLength");
  throwsFault(() => library.pinTranslateTo0(wrong, "", SENT, KEYS), "Formats");
  throwsFault(() => library.pinTranslateTo3(wrong, "", FILL, SENT, KEYS), "Formats");
  throwsFault(() => library.pbkdf2("sha1", SECRET, IV, wrong, 24), "IterationCount");
  throwsFault(() => library.pbkdf2("sha1", SECRET, IV, 1, wrong), "KeyLength");
  throwsFault(() => library.bytesToKey("sha1", SECRET, IV, wrong), "KeyLength");
}

for (const length of [0, 4, 9, 10, 11, 13]) {
  const text = "the key does not have a length that the call takes: a multiple of 4 bytes, at least 8";
  throwsFault(() => library.tkwWrapKey(PAIR, of(length)), "KeyLength", text);
}

// ---- Key blocks

const HEADER = library.keyBlockHeader(BLOCK);
const NO_OPTIONAL = "the optional blocks can't be read or written: a wrong length, name, content or PB, an end off a multiple of eight, or more than 99";
const wraps = (header, key = PAIR, options = {}) => library.wrapKeyBlock(PROTECTION, { ...HEADER, ...header }, key, options);
throwsFault(() => wraps({ version: "\u{1f600}" }), "KeyBlockVersion");
for (const name of ["usage", "algorithm", "mode", "keyVersion", "exportability"]) {
  for (const text of ["P\u00e9", "\u{1f600}", "\uff25"]) throwsFault(() => wraps({ [name]: text }), "KeyBlockField");
  for (const wrong of [undefined, null, 0, 5n, unhex("5030")]) throwsType(() => wraps({ [name]: wrong }), name);
}
for (const name of ["K\u00e9", "\u{1f600}"]) {
  throwsFault(() => wraps({}, PAIR, { optional: [[name, "0123"]] }), "OptionalBlock", NO_OPTIONAL);
}
throwsFault(() => wraps({}, PAIR, { optional: Array(100).fill(["KS", ""]) }), "OptionalBlock");
// A PB that fills, and names that are alike.
for (const optional of [[["KV", "ABCDEF"], ["PB", "00"]], ...["PB", "pb", "Pb", "BP", "P0"].map((name) => [[name, "0000"]])]) {
  assert.deepEqual(library.keyBlockOptionalBlocks(wraps({}, PAIR, { optional })), optional);
}
for (const length of [9900, 10001, 70000]) {
  throwsFault(() => wraps({}, PAIR, { optional: [["CT", "x".repeat(length)]] }), "KeyBlockLength");
}
for (const optional of ["KS04", ["KS"], [["KS"]], [["KS", "", ""]], [["KS", unhex("00")]], { KS: "" }, 3, null, [null]]) {
  throwsType(() => wraps({}, PAIR, { optional }), "optional blocks");
}
for (const wrong of [null, "1c2965473ce2", 6, [1, 2, 3, 4, 5, 6]]) throwsType(() => wraps({}, PAIR, { padding: wrong }), "padding");

const opens = (data, options = {}) => library.openSalted(library.TdesEde3, SECRET, data, options);
for (const wrong of [null, 5n, "1", true]) throwsType(() => opens(SALTED, { iterations: wrong }), "iterations");
for (const wrong of [null, 22, SECRET]) throwsType(() => opens(SALTED, { hashName: wrong }), "a hash function");

// ---- Options of another name, as Python refuses an unknown keyword: nothing is taken for one that was left out

const declared = readFileSync(`${folder}/cukvashe_des.d.mts`, "utf8");
const OF_OPTIONS = [
  {
    call: (options) => wraps({}, PAIR, options),
    right: { optional: [["KS", "0123"]], padding: of(6) },
    others: ["optionalBlocks", "optional_blocks", "Optional", "blocks", "pad", "paddings"],
    text: 'options: the names are "optional" and "padding" alone',
  },
  {
    call: (options) => opens(SALTED, options),
    right: { hashName: "sha256", iterations: undefined },
    others: ["hash_name", "hashname", "hash", "md", "iteration", "iter"],
    text: 'options: the names are "hashName" and "iterations" alone',
  },
  {
    call: (options) => library.cmsWrapKey(KEY, PAIR, options),
    right: { iv: IV },
    others: ["IV", "vector", "nonce", "counter"],
    text: 'options: the names are "iv" alone',
  },
];
const VALUES = [MESSAGE, null];
for (const [call, right, ...names] of [
  [(options) => library.mysqlDecryptValues(SECRET, VALUES, options), { errors: "null" }, "errors"],
  [(options) => library.pgcryptoDecryptValues("3des", KEY, VALUES, options), { iv: IV, errors: "null" }, "iv", "errors"],
  [(options) => library.jasyptDecryptValues(SECRET, VALUES, options), { iterations: 2, errors: "null" },
    "algorithm", "iterations", "errors"],
  [(options) => library.jasyptEncryptValues(SECRET, VALUES, options), { iterations: 2, salts: IV }, "algorithm", "iterations", "salts"],
  [(options) => library.jasyptEncrypt(SECRET, MESSAGE, options), { iterations: 2, salt: IV }, "algorithm", "iterations", "salt"],
]) {
  const listed = names.map((name) => `"${name}"`).join(", ").replace(/, ([^,]*)$/, " and $1");
  const others = ["error", "vector", "iteration", "hash"];
  OF_OPTIONS.push({ call, right, others, text: `options: the names are ${listed} alone` });
}
assert.equal(declared.match(/\boptions\?: /g).length, OF_OPTIONS.length, "a call with options that is not tested");
// Fields of a header too: an optional block there would be left out of the key block.
OF_OPTIONS.push({
  call: (header) => library.wrapKeyBlock(PROTECTION, header, PAIR, { padding: of(14) }),
  right: HEADER,
  others: ["optional", "key_version", "keyversion", "padding", "key"],
  text: 'a header: the names are "version", "usage", "algorithm", "mode", "keyVersion" and "exportability" alone',
});
// The keys of a translation go by name too, and each is there.
for (const [call, ...words] of [["pinTranslateTo0", 0, ACCOUNT, SENT], ["pinTranslateTo1", ONE], ["pinTranslateTo3", 0, ACCOUNT, FILL, SENT]]) {
  OF_OPTIONS.push({
    call: (options) => library[call](...words, options),
    right: KEYS,
    others: ["incoming_key", "outgoing_key", "incoming", "outgoing", "key"],
    text: 'options: the names are "incomingKey" and "outgoingKey" alone',
  });
  throwsType(() => library[call](PAIR, words[0], OTHER, ...words.slice(1)), "keys by their places");
  for (const keys of [PAIR, [PAIR, OTHER], { incomingKey: PAIR }, { outgoingKey: PAIR }, {}]) {
    throwsType(() => library[call](...words, keys), "keys of which one is missing");
  }
}
for (const { call, right, others, text } of OF_OPTIONS) {
  const answer = call(right);
  assert.deepEqual(call(Object.assign(Object.create(null), right)), answer);
  assert.deepEqual(call(Object.create(right)), answer);
  const hidden = Object.defineProperty({ ...right }, others[0], { value: undefined, enumerable: false });
  const wrong = [hidden, { ...right, [Symbol(others[0])]: 1 }, Object.create({ [others[0]]: 1 })];
  for (const other of [...others, "", "0", "toString"]) wrong.push({ [other]: undefined }, { ...right, [other]: 1 });
  for (const options of wrong) {
    throwsType(() => call(options), "an option of another name");
    assert.throws(() => call(options), { name: "TypeError", message: text });
  }
}

// ---- A call that does not end, since the engine's own stack does or the module traps: the next one has a new instance, and what
// the old one made is refused

/** Loads the module with an export that throws an error after it did its work, once that is asked for, and its memory. */
async function breaking(name, error) {
  let isAsked = false;
  const { memory } = await exportsOf((exports) => {
    const call = exports[name];
    assert.equal(typeof call, "function", name);
    const breaks = (...words) => {
      const answer = call(...words);
      if (isAsked) throw error;
      return answer;
    };
    return { ...exports, [name]: breaks };
  });
  return { memory, ask: () => { isAsked = true; } };
}

const OLD = "the cipher, MAC or terminal was closed by a call that did not end: make it anew";
const unended = [new RangeError("Maximum call stack size exceeded"), new WebAssembly.RuntimeError("unreachable"), new Error("other")];
for (const error of unended) {
  for (const [name, call] of [
    ["cukvashe_internal_encrypt_ecb", ({ cipher }) => cipher.encryptEcb(IV)],
    ["cukvashe_internal_mac_update", ({ mac }) => mac.update(IV)],
    ["cukvashe_internal_init", () => new library.TdesEde3(KEY)],
    ["cukvashe_dukpt_terminal_next_key", ({ terminal }) => terminal.nextKey()],
    ["cukvashe_natural_pin", ({ table }) => library.naturalPin(KEY, table, IV, 4)],
  ]) {
    const made = () => ({
      cipher: new library.TdesEde2(PAIR), mac: new library.CmacTdesEde3(KEY, MESSAGE),
      terminal: new library.DukptTerminal(PAIR, SERIAL), table: new library.DecimalTable("0123456789012345"),
    });
    await library.load();
    const answers = ({ cipher, mac, terminal, table }) => [
      hex(cipher.encryptEcb(IV)), mac.digest("hex"), mac.copy().digest("hex"), hex(terminal.state()),
      library.naturalPin(KEY, table, IV, 4),
    ];
    const right = answers(made());
    const { memory, ask } = await breaking(name, error);
    const old = made();
    ask();
    assert.throws(() => call(old), (thrown) => thrown === error);
    const { cipher, mac, terminal, table } = old;
    const refused = [
      () => cipher.encryptEcb(IV), () => cipher.decryptCbc(IV, { iv: IV }),
      () => library.encryptCbcRecords(cipher, IV, { vectors: IV, counts: [1] }),
      () => mac.update(IV), () => mac.digest(), () => mac.verify(IV), () => mac.copy(), () => terminal.nextKey(),
      () => terminal.state(), () => library.naturalPin(KEY, table, IV, 4), () => library.pinOffset(KEY, table, IV, "1234"),
    ];
    for (const run of refused) throwsFault(run, "Closed", OLD);
    assert.deepEqual(answers(made()), right, `after ${error} of ${name}`);
    for (const run of refused) throwsFault(run, "Closed", OLD);
    // What the call that did not end had laid down is wiped.
    const bytes = new Uint8Array(memory.buffer);
    for (const secret of [KEY, PAIR, MESSAGE]) {
      assert(!Buffer.from(bytes).includes(Buffer.from(secret)), "a key is left in the old instance");
    }
    mac.close();
    throwsFault(() => mac.digest(), "Closed", "the cipher, MAC or terminal was closed");
    await library.load();
    throwsFault(() => cipher.encryptEcb(IV), "Closed", OLD);
    assert.deepEqual(answers(made()), right);
  }
}

/** Makes a call wherever the engine's stack has come to its end, on the way back from there; gives what came of them. */
function atTheEnd(call) {
  const seen = [];
  const falls = () => {
    try {
      falls();
    } catch (error) {
      if (!(error instanceof RangeError)) throw error;
    }
    if (seen.length < 400) seen.push(call());
  };
  falls();
  return seen;
}

const wanted = hex(new library.TdesEde3(KEY).encryptEcb(MESSAGE));
const ends = { RangeError: 0, Closed: 0, right: 0 };
for (let round = 0; round < 40; round += 1) {
  let instance = new library.TdesEde3(KEY);
  const outcomes = atTheEnd(() => {
    try {
      return hex(instance.encryptEcb(MESSAGE));
    } catch (error) {
      return error;
    }
  });
  for (const outcome of outcomes) {
    const isFault = outcome instanceof RangeError || outcome instanceof library.Closed;
    assert(isFault || outcome === wanted, `${outcome}`);
    ends[isFault ? outcome.name : "right"] += 1;
  }
  instance = new library.TdesEde3(KEY);
  is(instance.encryptEcb(MESSAGE), wanted);
}
assert(ends.RangeError > 0, "the stack did not end within a call");

// Where memory can't grow, no call of the module had begun, and nothing is spoiled.
await exportsOf((exports) => {
  const grow = () => { throw new RangeError("no memory"); };
  return { ...exports, memory: { get buffer() { return exports.memory.buffer; }, grow } };
});
const lasting = new library.TdesEde3(KEY);
assert.throws(() => lasting.encryptEcb(of(1 << 24)), { name: "RangeError", message: "no memory" });
is(lasting.encryptEcb(MESSAGE), wanted);
await library.load();

// After the last transaction, or where no future key is left, as in a state of zeros, there is no key, and the state stays.
for (const [serial, byte] of [["ffff9876543210fff800", 7], ["ffff9876543210e00000", 0], ["00000000000000000000", 0]]) {
  const last = new Uint8Array(346).fill(byte);
  last.set(unhex(serial));
  const ended = library.DukptTerminal.fromState(last);
  throwsFault(() => ended.nextKey(), "NoSerial", "the terminal has no key for a next transaction");
  is(ended.state(), hex(last));
}
for (const at of [10, 345]) {
  const begun = library.DukptTerminal.fromState(new Uint8Array(346).fill(1, at, at + 1));
  is(begun.nextKey().serial, "00000000000000000001");
}
// A state that is given, or was taken, is the caller's.
const terminal = new library.DukptTerminal(PAIR, SERIAL);
const state = terminal.state();
const digits = hex(state);
const other = library.DukptTerminal.fromState(state);
state.fill(0);
other.state().fill(0);
is(other.state(), digits);
terminal.close();
for (const call of ["nextKey", "state"]) throwsFault(() => terminal[call](), "Closed", "the cipher, MAC or terminal was closed");

// ---- Wrong types: each of these in the place of each argument

/** Arrays that lie outside their buffer, which was shrunk, or taken away by another thread: nothing of them is there. */
function outside() {
  const buffer = new ArrayBuffer(16, { maxByteLength: 16 });
  const shrunk = [new Uint8Array(buffer, 8, 8), new Uint8Array(buffer, 8), new Uint8Array(buffer, 16)];
  buffer.resize(4);
  const sent = new Uint8Array(8);
  structuredClone(sent, { transfer: [sent.buffer] });
  return [...shrunk, sent];
}

const WRONG = [
  ...[undefined, null, 5, 5n, true, "0123456789abcdef", [1, 2, 3], {}, { length: 8 }, Symbol("key"), () => KEY],
  ...[new ArrayBuffer(8), new DataView(new ArrayBuffer(8)), new Uint16Array(8), new Uint8ClampedArray(8)],
  ...[{ [Symbol.toPrimitive]: () => assert.fail("a value of an object is asked for") }, new Proxy(KEY, {})],
  ...outside(),
];
for (const [name, words, allowed] of allCalls()) {
  const call = (...given) => (/^[A-Z]/.test(name) ? new library[name](...given) : library[name](...given));
  const seen = () => words.map((word) => (word instanceof Uint8Array ? hex(word) : word));
  const before = seen();
  call(...words);
  assert.deepEqual(seen(), before, `${name} changes what it is given`);
  words.forEach((_, at) => {
    for (const wrong of WRONG.filter((it) => !allowed[at](it))) {
      throwsType(() => call(...words.with(at, wrong)), `${name}, argument ${at + 1}, of the type ${typeof wrong}`);
    }
  });
  throwsType(() => call(), `${name} without arguments`);
}
const cipher = new library.TdesEde3(KEY);
const mac = new library.CmacTdesEde3(KEY);
// Digits are the bytes of nothing: the error says what makes bytes of them.
const ofDigits = /^a key: a Uint8Array is needed, as Buffer\.from\(digits, "hex"\) or Uint8Array\.fromHex\(digits\) makes it$/;
assert.throws(() => new library.TdesEde3(hex(KEY)), { name: "TypeError", message: ofDigits });
for (const wrong of WRONG) {
  throwsType(() => mac.update(wrong), "update");
  throwsType(() => mac.verify(wrong), "verify");
  throwsType(() => mac.verifyTruncatedLeft(wrong), "verifyTruncatedLeft");
  for (const call of ["encryptEcb", "decryptEcb"]) throwsType(() => cipher[call](wrong), call);
  for (const call of CBC) {
    throwsType(() => cipher[call](wrong, { iv: IV }), call);
    throwsType(() => cipher[call](IV, { iv: wrong }), call);
    throwsType(() => cipher[call](IV, wrong), call);
    throwsType(() => library[`${call}Records`](cipher, IV, { vectors: wrong, counts: [1] }), "vectors");
    if (!isNumbers(wrong)) throwsType(() => library[`${call}Records`](cipher, IV, { vectors: IV, counts: wrong }), "counts");
  }
}
for (const wrong of [[1.5], ["1"], [1n], [undefined], [null]]) {
  throwsType(() => library.encryptCbcRecords(cipher, IV, { vectors: IV, counts: wrong }), "a count");
}
// Classes in each other's place, the classes behind them, and methods without their object.
throwsType(() => library.checkValue(library.RetailMacDes, PAIR), "a MAC for a cipher");
throwsType(() => library.macs(library.TdesEde2, PAIR, 2, [24], MESSAGE), "a cipher for a MAC");
throwsType(() => library.encryptCbcRecords(library.TdesEde3, IV, { vectors: IV, counts: [1] }), "a class for a cipher");
throwsType(() => library.encryptCbcRecords(mac, IV, { vectors: IV, counts: [1] }), "a MAC for a cipher");
throwsType(() => new (Object.getPrototypeOf(library.TdesEde3))(KEY), "the class of all ciphers");
assert.throws(() => library.TdesEde3(KEY), TypeError);
throwsType(() => library.TdesEde3.prototype.encryptEcb.call({}, IV), "a method of nothing");
throwsType(() => library.TdesEde3.prototype.encryptEcb.call(mac, IV), "a method of another");
throwsType(() => Object.create(library.TdesEde3.prototype).encryptEcb(IV), "an object that no constructor made");

// ---- One argument more than a call takes, if only undefined

/** How many arguments functions, methods, and constructors by their class take at most, as declared. */
function mostArguments() {
  const most = new Map();
  let owner;
  const heads = /^(?:export |declare |abstract )*class (\w+)|^(?:export function |  (?:static )?)(\w+)\(([^()]*)\)/gm;
  for (const [, Class, name, list] of declared.matchAll(heads)) {
    owner = Class ?? owner;
    if (Class !== undefined) continue;
    const count = list.includes("...") ? Infinity : list.replace(/{[^{}]*}/g, "").split(",").filter((it) => it.trim() !== "").length;
    const place = name === "constructor" ? owner : name;
    most.set(place, Math.max(count, most.get(place) ?? 0));
  }
  return most;
}

const most = mostArguments();
let calls = 0;

/** A call takes these arguments, which are all that it is declared with, and not another one. */
function takesNoMore(name, run, words) {
  if (most.get(name) === Infinity) return;
  assert.equal(words.length, most.get(name), `${name} is not seen with all its arguments`);
  for (const more of [undefined, IV, { usage: "P0" }, 8]) throwsType(() => run(...words, more), `${name}, one argument too many`);
  run(...words);
  calls += 1;
}

const cbcOf = (object, end) => (object === end ? [] : [object, ...cbcOf(Object.getPrototypeOf(object), end)]);
const methodsOf = (object) => Reflect.ownKeys(object).filter((it) => it !== "constructor" && typeof object[it] === "function");
const METHODS = {
  ...Object.fromEntries(["encryptEcb", "decryptEcb", "update", "encrypt", "decrypt"].map((name) => [name, () => [IV]])),
  ...Object.fromEntries([...CBC, "encryptOfb", "decryptOfb"].map((name) => [name, () => [IV, { iv: IV }]])),
  ...Object.fromEntries(["encryptCtr", "decryptCtr"].map((name) => [name, () => [IV, { counter: IV }]])),
  ...Object.fromEntries(["encryptCfb", "decryptCfb"].map((name) => [name, () => [IV, { iv: IV, segmentSize: 8 }]])),
  ...Object.fromEntries(["encryptBits", "decryptBits"].map((name) => [name, () => [IV, 5]])),
  seek: () => [9],
  ...Object.fromEntries(["copy", "nextKey", "state", "close"].map((name) => [name, () => []])),
  digest: () => ["hex"],
  verify: (it) => [it.digest()],
  verifyTruncatedLeft: (it) => [it.digest().subarray(0, 4)],
  fromState: () => [new library.DukptTerminal(PAIR, SERIAL).state()],
  ofAnyVariety: () => ["0000000000000000"],
};
const wordsOf = new Map(allCalls().map(([name, words]) => [name, words]));
wordsOf.set("isSupported", []);
for (const [Class, size] of PADDED) wordsOf.set(Class.name, [KEY.subarray(0, size), 2, IV]);
for (const [Class, size] of CMACS) wordsOf.set(Class.name, [KEY.subarray(0, size), IV]);
for (const [name, it] of Object.entries(library)) {
  const isFault = it === library.CukvasheError || it.prototype instanceof library.CukvasheError;
  if (typeof it !== "function" || isFault || name === "load") continue;
  assert(wordsOf.has(name), `${name} is not in the table of calls`);
  const words = wordsOf.get(name);
  if (!/^[A-Z]/.test(name)) {
    takesNoMore(name, it, words);
    continue;
  }
  const declaring = cbcOf(it, Function.prototype).find((Class) => most.has(Class.name));
  takesNoMore(declaring.name, (...given) => new it(...given), words);
  for (const Class of cbcOf(it, Function.prototype)) {
    for (const method of methodsOf(Class)) takesNoMore(method, (...given) => it[method](...given), METHODS[method]());
  }
  for (const prototype of cbcOf(it.prototype, Object.prototype)) {
    for (const method of methodsOf(prototype)) {
      const object = new it(...words);
      const called = method === Symbol.dispose ? "close" : method;
      takesNoMore(called, (...given) => object[method](...given), METHODS[called](object));
    }
  }
}
assert(calls > 100, `${calls} calls were seen with an argument too many`);
await assert.rejects(library.load(module, undefined), { name: "TypeError" });
throwsType(() => [PAIR, KEY].map(library.isWeakKey), "a call that is given an index too");

// ---- What is right by habit

// A class that says another length, or another buffer, than it has is taken for the bytes that it has.
for (const said of [0, 8, 16, 23, 25, 48]) {
  class Said extends Uint8Array {
    get length() { return said; }

    get byteOffset() { return 1; }

    get buffer() { return new ArrayBuffer(64); }
  }
  is(new library.TdesEde3(Said.from(KEY)).encryptEcb(Said.from(IV)), hex(cipher.encryptEcb(IV)));
}

class Own extends library.TdesEde3 {}
is(new Own(KEY).encryptEcb(IV), hex(cipher.encryptEcb(IV)));
is(library.checkValue(Own, KEY), hex(library.checkValue(library.TdesEde3, KEY)));
is(cipher.encryptEcb(Buffer.from(IV)), hex(cipher.encryptEcb(IV)));
is(cipher.encryptEcb(new Uint8Array(MESSAGE.buffer, 8, 8)), hex(cipher.encryptEcb(MESSAGE.slice(8, 16))));
is(cipher.encryptEcb(runInNewContext("Uint8Array.of(18, 52, 86, 120, 144, 171, 205, 239)")), hex(cipher.encryptEcb(IV)));
is(cipher.encryptEcb(new Uint8Array(new SharedArrayBuffer(8))), hex(cipher.encryptEcb(new Uint8Array(8))));
assert.equal(JSON.stringify(cipher), "{}");
assert.equal(`${Object.getOwnPropertyNames(cipher)}${Object.getOwnPropertySymbols(cipher).length}`, "0");
assert.match(library.version, /^\d+\.\d+\.\d+$/);
assert.equal(description.version, library.version);

// Every error and call of the package for Python has its name here, but those that work in place and that a string of
// digits replaces.
for (const name of Object.keys(library)) {
  assert.match(declared, new RegExp(`^export (declare )?(class|function|const) ${name}\\b`, "m"), `${name} has no type`);
}
for (const [, name] of declared.matchAll(/^export (?:class|function|const) (\w+)/gm)) {
  assert(name in library, `${name} is declared alone`);
}
console.log(`JavaScript: ${countOfFaults() + types} errors and wrong types`);
