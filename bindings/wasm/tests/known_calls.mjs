// known_calls.mjs FOLDER: the calls of bindings/known_calls.txt, with each text as a text and as bytes.
import assert from "node:assert/strict";
import { hex, is, library, throwsFault } from "./common.mjs";
import { knownCalls, run } from "./known.mjs";

await library.load();

// Calls of which a text is a name, or a header's field, and not data: they take no bytes for it.
const OF_NAMES = ["pad", "unpad", "pbkdf2", "bytesToKey", "openSalted", "pbeKey", "wrapKeyBlock"];
const isPlain = (word) => typeof word !== "string" || /^[\0-\x7f]*$/.test(word);
const asBytes = (word) => (typeof word === "string" ? Buffer.from(word) : word);

function same(answer, wanted) {
  if (wanted instanceof Uint8Array) is(answer, hex(wanted));
  else assert.deepEqual(answer, wanted);
  if (wanted?.key !== undefined) is(answer.key, hex(wanted.key));
}

let made = 0;
for (const { name, words, answer, error, sentence } of knownCalls()) {
  const forms = OF_NAMES.includes(name) || !words.every(isPlain) ? [words] : [words, words.map(asBytes)];
  for (const form of forms) {
    if (error === undefined) same(run(name, form), answer);
    else throwsFault(() => run(name, form), error, sentence);
  }
  made += 1;
}
assert(made > 5000, `${made}`);
console.log(`JavaScript: ${made} calls and what comes of them`);
