// between.mjs FOLDER: a getter, an iterator or a proxy among the arguments of a call runs code of the caller's. Whatever that does, to
// what the call is given or by calls of its own, the call answers as if the code had run before it.
import assert from "node:assert/strict";
import { hex, library } from "./common.mjs";
import { BLOCK, IV, KEY, MESSAGE, PAIR, SERIAL, allCalls } from "./calls.mjs";

await library.load();

// ---- Calls, each a function of all that it reads: of a class or an object before its arguments

const isClass = (name) => /^[A-Z]/.test(name);
const BASES = [library.Des, library.RetailMacDes, library.CmacTdesEde2, library.Ctr].map(Object.getPrototypeOf);
const CLASSES = [...BASES, library.DukptTerminal, library.DecimalTable];
const made = (Class, ...words) => Reflect.construct(Object.getPrototypeOf(Class), words, Class);

/** A call of the table; of a constructor, by a class that is derived from it. */
function callOf([name, words]) {
  if (!isClass(name)) return [name, library[name], words];
  return [`new ${name}`, made, [class extends library[name] {}, ...words]];
}

const cipher = () => new library.TdesEde3(KEY);
const mac = () => new library.CmacTdesEde3(KEY, MESSAGE);
const terminal = () => new library.DukptTerminal(PAIR, SERIAL);
const cfb = (segmentSize) => new library.Cfb(cipher(), { iv: IV, segmentSize });
const METHODS = [
  ...["encryptEcb", "decryptEcb"].map((name) => [name, cipher(), MESSAGE]),
  ...["encryptCbc", "decryptCbc"].map((name) => [name, cipher(), MESSAGE, { iv: IV }]),
  ...["encryptCtr", "decryptCtr"].map((name) => [name, cipher(), MESSAGE, { counter: IV }]),
  ...["encryptOfb", "decryptOfb"].map((name) => [name, cipher(), MESSAGE, { iv: IV }]),
  ...["encryptCfb", "decryptCfb"].map((name) => [name, cipher(), MESSAGE, { iv: IV, segmentSize: 8 }]),
  ...["encrypt", "decrypt"].map((name) => [name, cfb(64), MESSAGE]),
  ...["encryptBits", "decryptBits"].map((name) => [name, cfb(1), MESSAGE, 5]),
  ...[["copy", cfb(8)], ["seek", new library.Ctr(cipher(), { counter: IV }), 9]],
  ...[["update", mac(), MESSAGE], ["digest", mac()], ["digest", mac(), "hex"], ["copy", mac()]],
  ...[["verify", mac(), mac().digest()], ["verifyTruncatedLeft", mac(), mac().digest().subarray(0, 4)]],
  ...[["nextKey", terminal()], ["state", terminal()]],
  ["fromState", class extends library.DukptTerminal {}, terminal().state()],
  ["ofAnyVariety", class extends library.DecimalTable {}, "0".repeat(16)],
];
const CALLS = [
  ...allCalls().map(callOf),
  ...METHODS.map(([name, ...words]) => [name, (object, ...others) => object[name](...others), words]),
];
const called = CALLS.map(([name]) => name);
const functions = Object.keys(library).filter((name) => typeof library[name] === "function" && !isClass(name));
assert.deepEqual(functions.filter((name) => !called.includes(name)), ["isSupported", "load"], "functions that nothing calls here");

// ---- Arguments, and what runs code when it is read

const isObject = (word) => Object.prototype.toString.call(word) === "[object Object]";

/** Whether the wrapper keeps a state for an object. */
const isKept = (word) => CLASSES.some((Class) => word instanceof Class);

/** The same word of its own: bytes in a buffer that can grow and shrink, and what keeps a key made anew. */
function fresh(word) {
  if (word instanceof Uint8Array) {
    const bytes = new Uint8Array(new ArrayBuffer(word.length, { maxByteLength: word.length + 64 }));
    bytes.set(word);
    return bytes;
  }
  if (word instanceof library.DecimalTable) return new library.DecimalTable("0123456789012345");
  if (word instanceof library.DukptTerminal) return terminal();
  if (isKept(word)) return word.copy?.() ?? cipher();
  if (Array.isArray(word)) return word.map(fresh);
  if (isObject(word)) return Object.fromEntries(Object.entries(word).map(([name, it]) => [name, fresh(it)]));
  return word;
}

/** Of words and what is in them, all of a kind. */
const within = (words, isOne) => words.flatMap((word) => {
  if (isOne(word)) return [word];
  return Array.isArray(word) || (isObject(word) && !isKept(word)) ? within(Object.values(word), isOne) : [];
});
const bytesIn = (words) => within(words, (word) => word instanceof Uint8Array);

/** What is done with a proxy runs code first. */
const trapped = (target, act) => new Proxy(target, new Proxy({}, {
  get: (_, trap) => (...words) => {
    act();
    return Reflect[trap](...words);
  },
}));

const getters = (object, names, act) => Object.defineProperties(object, Object.fromEntries(names.map((name) => {
  const value = object[name];
  const get = () => {
    act();
    return value;
  };
  return [name, { get, enumerable: true, configurable: true }];
})));

/** Forms of a word that run code where they are read. */
function hooked(word, act) {
  if (word instanceof Uint8Array) {
    return [getters(word, ["length", "byteLength", "byteOffset", "buffer", "constructor", Symbol.iterator, Symbol.toStringTag, "slice"], act)];
  }
  if (isKept(word)) return [Object.setPrototypeOf(word, trapped(Object.create(Object.getPrototypeOf(word)), act))];
  // Of a class that is derived: a proxy of one of the library's own is none of its classes.
  if (typeof word === "function") return [trapped(class extends word {}, act)];
  if (Array.isArray(word)) {
    const walked = function* walked() {
      try {
        yield* word;
      } finally {
        act();
      }
    };
    // A pair in a list is an array.
    const parts = word.flatMap((part, at) => hooked(part, act).filter(Array.isArray).map((form) => word.with(at, form)));
    return [walked(), trapped(word, act), getters([...word], [Symbol.iterator], act), ...parts];
  }
  if (isObject(word)) {
    const parts = Object.entries(word).flatMap(([name, it]) => hooked(it, act).map((form) => ({ ...word, [name]: form })));
    return [getters({ ...word }, Object.keys(word), act), trapped(word, act), ...parts];
  }
  return [];
}

// ---- What the code does

const canClose = (word) => isKept(word) && word.close !== undefined;
const right = hex(cipher().encryptEcb(MESSAGE));
const rightTags = hex(library.macs(library.CmacTdesEde3, KEY, null, [24], MESSAGE));
const DEEDS = {
  calls() {
    assert.equal(hex(cipher().encryptEcb(MESSAGE)), right);
    assert.equal(hex(library.macs(library.CmacTdesEde3, KEY, null, [24], MESSAGE)), rightTags);
    assert.throws(() => library.pinEncode0("12", "4"), library.PinLength);
  },
  closes: (words) => within(words, canClose).forEach((word) => word.close()),
  changes: (words) => bytesIn(words).forEach((bytes) => bytes.fill(0x31)),
  shrinks: (words) => bytesIn(words).forEach(({ buffer }) => buffer.resize(Math.max(0, buffer.byteLength - 8))),
  empties: (words) => bytesIn(words).forEach(({ buffer }) => buffer.resize(0)),
  grows: (words) => bytesIn(words).forEach(({ buffer }) => buffer.resize(buffer.byteLength + 8)),
  detaches: (words) => bytesIn(words).forEach(({ buffer }) => structuredClone(buffer, { transfer: [buffer] })),
};

/** What comes of a call, in values that can be compared: of an object something that it answers. */
function outcome(call, words) {
  try {
    return written(call(...words));
  } catch (error) {
    return [error.constructor.name, error.name, error.message];
  }
}

function written(answer) {
  if (answer instanceof library.DecimalTable) return library.naturalPin(KEY, answer, IV, 12);
  if (answer instanceof library.DukptTerminal) return hex(answer.state());
  if (answer?.encryptEcb !== undefined) return hex(answer.encryptEcb(IV));
  if (answer?.digest !== undefined) return hex(answer.digest());
  if (answer?.decrypt !== undefined) return hex(answer.decrypt(MESSAGE));
  return answer;
}

/** What comes of a call with its argument at a place in one of the forms, and whether the deed was done in it; null after the last form. */
function withDeed(call, words, at, form, does) {
  const given = fresh(words);
  const before = [...given];
  let [isReading, isDone] = [false, false];
  const act = () => {
    if (!isReading || isDone) return;
    isDone = true;
    does(before);
  };
  const forms = hooked(given[at], act);
  if (form === forms.length) return null;
  isReading = true;
  const came = outcome(call, given.with(at, forms[form]));
  return { came, isDone };
}

let runs = 0;
let compared = 0;
for (const [name, call, words] of CALLS) {
  const asItIs = outcome(call, fresh(words));
  for (const [deed, does] of Object.entries(DEEDS)) {
    const given = fresh(words);
    does(given);
    const afterwards = outcome(call, given);
    for (const at of words.keys()) {
      for (let form = 0, it; (it = withDeed(call, words, at, form, does)) !== null; form += 1) {
        const what = `${name}, argument ${at + 1} in form ${form + 1}, whose code ${deed}`;
        assert.deepEqual(it.came, it.isDone ? afterwards : asItIs, what);
        runs += 1;
        compared += it.isDone;
      }
    }
  }
}
assert(compared > 300, `code of the caller's ran in ${compared} calls alone`);

// A class that says it is another when it is asked again has the method of neither.
const [Cmac, Retail] = [library.CmacTdesEde2, library.RetailMacDes];
for (const [Class, Other, padding] of [[Cmac, Retail, 1], [Retail, Cmac, null]]) {
  let asked = 0;
  const get = () => ((asked += 1) > 1 ? Other.prototype : Class.prototype);
  const changes = Object.defineProperty(Object.setPrototypeOf(() => {}, Class), "prototype", { get });
  assert.throws(() => library.macs(changes, PAIR, padding, [24], MESSAGE), TypeError);
}
// A pair whose content is another each time is the one that was tested.
let reads = 0;
const pair = Object.defineProperty(["KS", ""], 1, { get: () => "01".repeat(reads += 1) });
const block = library.wrapKeyBlock(PAIR, library.keyBlockHeader(BLOCK), PAIR, { optional: [pair] });
assert.deepEqual(library.keyBlockOptionalBlocks(block)[0], ["KS", "01"]);
console.log(`JavaScript: ${compared} of ${runs} calls, within which code of the caller's ran`);
