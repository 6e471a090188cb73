// What the tests share: the wrapper that was built, the module's instance behind it, and bytes of digits.
import assert from "node:assert/strict";
import { readFileSync } from "node:fs";

export const [folder] = process.argv.slice(2);
// With MEMORY=32 the engine has no 64-bit memory for the wrapper.
const { validate } = WebAssembly;
if (process.env.MEMORY === "32") WebAssembly.validate = (bytes) => bytes.length > 13 && validate(bytes);
const hasMemory64 = WebAssembly.validate(Uint8Array.of(0, 97, 115, 109, 1, 0, 0, 0, 5, 3, 1, 4, 1));

/** The module that is loaded here. */
export const moduleFile = `${folder}/${hasMemory64 ? "cukvashe_des.wasm" : "cukvashe_des_32.wasm"}`;
export const library = await import(new URL(`${folder}/cukvashe_des.mjs`, "file:///"));

/** The bytes of hexadecimal digits, as a plain Uint8Array. */
export const unhex = (digits) => Uint8Array.from(digits.match(/../g) ?? [], (pair) => parseInt(pair, 16));
export const hex = (bytes) => Buffer.from(bytes).toString("hex");

/** That bytes are a plain Uint8Array, which has its memory for itself, of these digits. */
export function is(bytes, digits) {
  assert.equal(Object.getPrototypeOf(bytes), Uint8Array.prototype);
  assert.equal(bytes.buffer.byteLength, bytes.length);
  assert.equal(hex(bytes), digits);
}

/** The lines of a file of known answers, in words. */
export const linesOf = (file) =>
  readFileSync(file, "ascii").split("\n").filter((line) => line.trim() !== "" && !line.startsWith("#"));

/** Loads the module, and gives its exports, through `changed` where that is given. */
export async function exportsOf(changed = (exports) => exports) {
  const { instantiate } = WebAssembly;
  let exports;
  WebAssembly.instantiate = async (...words) => {
    const made = await instantiate(...words);
    exports = changed({ ...made.instance.exports });
    return { module: made.module, instance: { exports } };
  };
  try {
    await library.load();
  } finally {
    WebAssembly.instantiate = instantiate;
  }
  return exports;
}

// What a text of an error is made of: few characters, and no value.
export const TEXT = /^[a-z0-9":,(){}^'_ .%-]+$/i;

let faults = 0;

/** How many errors were seen. */
export const countOfFaults = () => faults;

/** A call throws this error, whose text is one of few words, and shows nothing that was given. */
export function throwsFault(run, name, text) {
  assert.throws(run, (error) => {
    assert.equal(error.name, name, `${error}`);
    assert(error instanceof library[name] && error instanceof library.CukvasheError && error instanceof Error);
    assert.equal(library[name].name, name);
    if (text !== undefined) assert.equal(error.message, text);
    assert.match(error.message, TEXT);
    return true;
  });
  faults += 1;
}
