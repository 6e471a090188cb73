// wiped.mjs FOLDER: where keys, round keys and PINs are in the engine's memory, and that nothing of them is left there after `close`, after a
// call, and after an instance was given up. The engine's debugger finds the buffers.
import assert from "node:assert/strict";
import { Session } from "node:inspector";
import { exportsOf, library, unhex } from "./common.mjs";

const STACK_SIZE = 131072;
const session = new Session();
session.connect();

/** What the engine's debugger answers, at once, since it is asked in the same thread. */
function asked(method, words) {
  let answer;
  session.post(method, words, (error, it) => {
    if (error) throw new Error(error.message);
    answer = it;
  });
  return answer;
}

/** Every buffer that is alive. */
function buffers() {
  let found;
  globalThis.takesBuffers = (list) => { found = list; };
  const { result } = asked("Runtime.evaluate", { expression: "ArrayBuffer.prototype" });
  const { objects } = asked("Runtime.queryObjects", { prototypeObjectId: result.objectId });
  asked("Runtime.callFunctionOn", { objectId: objects.objectId, functionDeclaration: "function () { takesBuffers(this); }" });
  asked("Runtime.releaseObject", { objectId: objects.objectId });
  return [...found];
}

// Secrets are written in digits, which are in no buffer. These are made without a copy of the bytes.
const hex = (bytes) => Buffer.from(bytes.buffer, bytes.byteOffset, bytes.length).toString("hex");
const has = (buffer, digits) => hex(new Uint8Array(buffer)).includes(digits);
const holding = (digits) => buffers().filter((buffer) => has(buffer, digits));

// What the last call that makes a context has written: `at` is the place of its address among the words.
let memory;
let written;
const reading = (call, at, sizeOf) => (...words) => {
  const answer = call(...words);
  written = hex(new Uint8Array(memory.buffer, Number(words[at]), sizeOf(words)));
  return answer;
};
const ofWords = (at) => (words) => 8 * Number(words[at]);
await exportsOf((exports) => {
  ({ memory } = exports);
  return {
    ...exports,
    cukvashe_internal_init: reading(exports.cukvashe_internal_init, 0, ofWords(1)),
    cukvashe_internal_mac_init: reading(exports.cukvashe_internal_mac_init, 1, ofWords(2)),
    cukvashe_dukpt_terminal_init: reading(exports.cukvashe_dukpt_terminal_init, 0, () => 346),
  };
});

const KEY = "0123456789abcdef23456789abcdef01456789abcdef0123";
const PAIR = "0123456789abcdeffedcba9876543210";
const SERIAL = "ffff9876543210e00001";
const MADE = [
  ...[[library.Des, 8], [library.TdesEde2, 16], [library.TdesEde3, 24]].map(([Class, size]) => [Class, KEY.slice(0, 2 * size)]),
  ...[[library.CbcMacDes, 8], [library.CbcMacTdesEde2, 16], [library.CbcMacTdesEde3, 24], [library.RetailMacDes, 16]]
    .map(([Class, size]) => [Class, KEY.slice(0, 2 * size), 2]),
  ...[[library.CmacTdesEde2, 16], [library.CmacTdesEde3, 24]].map(([Class, size]) => [Class, KEY.slice(0, 2 * size)]),
  [library.DukptTerminal, PAIR, unhex(SERIAL)],
];
for (const [Class, digits, ...words] of MADE) {
  const key = unhex(digits);
  const object = new Class(key, ...words);
  key.fill(0);
  const context = written;
  assert(context.length >= 16 * 17 && !/^0+$/.test(context));
  assert.deepEqual(holding(digits), [], `the key of ${Class.name} is kept`);
  const found = holding(context);
  assert.equal(found.length, 1, `the context of ${Class.name} is in ${found.length} buffers`);
  assert.notEqual(found[0], memory.buffer, `the context of ${Class.name} is left in the module's memory`);
  const copy = object.copy?.();
  object.close();
  assert.match(hex(new Uint8Array(found[0])), /^0*$/, `close of ${Class.name} does not wipe`);
  copy?.close();
  assert.deepEqual(holding(context), [], `a context of ${Class.name} is left after close`);
}

// ---- A stream has an output block, which shows the text that it encrypts: nothing of it is left either

{
  const cipher = new library.TdesEde3(unhex(KEY));
  const iv = unhex("1234567890abcdef");
  const block = cipher.encryptEcb(iv);
  const output = hex(block);
  block.fill(0);
  const stream = new library.Cfb(cipher, { iv, segmentSize: 64 });
  stream.encrypt(unhex("616263"));
  assert.equal(holding(output).length, 1, "where the stream is");
  const copy = stream.copy();
  stream.close();
  assert.equal(holding(output).length, 1, "close of a stream does not wipe");
  copy.close();
  assert.deepEqual(holding(output), [], "a state of a stream is left after close");
  cipher.close();
}

// ---- What calls answer in digits, or write on the way to their answer: no copy of it is left

/** The arrays that a run makes by copying. */
function copiesOf(run) {
  const { slice } = Uint8Array.prototype;
  const copies = [];
  Uint8Array.prototype.slice = function copied(...words) {
    copies.push(slice.call(this, ...words));
    return copies.at(-1);
  };
  try {
    run();
  } finally {
    Uint8Array.prototype.slice = slice;
  }
  return copies;
}

const pair = unhex(PAIR);
const table = new library.DecimalTable("0123456789012345");
const fill = new Uint8Array(10).fill(10);
const block = library.pinEncode0("1234", "4012345678909");
for (const [wanted, run] of [
  ["1234", () => library.pinDecode0(block, "4012345678909")],
  ["123456", () => library.pinDecode1(library.pinEncode1("123456", fill))],
  ["1894", () => library.pvv(pair, "4123456789012345", 1, "1234")],
  ["0620", () => library.naturalPin(pair, table, unhex("4123456789012345"), 4)],
  ["9999", () => library.pinOffset(pair, table, unhex("4123456789012345"), "9519")],
]) {
  const copies = copiesOf(() => assert.equal(run(), wanted));
  const digits = hex(Buffer.from(wanted));
  assert(copies.length > 0 && copies.every((copy) => !hex(copy).includes(digits)), `${wanted} is left in a copy`);
}

// ---- What a call had laid down, where its wiping did not end: the next call wipes it, before it takes another instance

let isStopped = false;
await exportsOf((exports) => {
  ({ memory } = exports);
  const stopping = {
    get buffer() {
      if (isStopped) throw new RangeError("Maximum call stack size exceeded");
      return memory.buffer;
    },
    grow: (pages) => memory.grow(pages),
  };
  const call = exports.cukvashe_key_check_value;
  const stops = (...words) => {
    const answer = call(...words);
    isStopped = true;
    return answer;
  };
  return { ...exports, memory: stopping, cukvashe_key_check_value: stops };
});
const key = unhex(KEY);
assert.throws(() => library.keyCheckValue(key), RangeError);
key.fill(0);
const stack = () => new Uint8Array(memory.buffer, 0, STACK_SIZE);
assert(has(memory.buffer, KEY), "the key was not laid down");
assert(stack().some((byte) => byte !== 0), "the call has used no stack");
isStopped = false;
assert.equal(hex(library.keyCheckValue(unhex(KEY))), "4eba73");
assert(!has(memory.buffer, KEY), "the key is left in an instance that was given up");
assert(stack().every((byte) => byte === 0), "the stack of an instance that was given up is left");
session.disconnect();
console.log(`JavaScript: ${MADE.length} kinds of objects closed, and nothing of their keys is left`);
