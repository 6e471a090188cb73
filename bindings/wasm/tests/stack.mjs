// stack.mjs FOLDER: each export that the wrapper calls on a stack that was overwritten before, at lengths that take
// every code path: it uses far less than there is; and each export of the module is called, but those of other paths to the same
// answers, and those that the wrapper does not have.
import assert from "node:assert/strict";
import { readFileSync } from "node:fs";
import { exportsOf, library, moduleFile } from "./common.mjs";
import { knownCalls, run } from "./known.mjs";

const SIZE = 131072;
const used = new Map();
let memory;

/** An export that says how much of the stack a call took. It gets as many words as it takes: the engine would pass over others, and 0 for none. */
const measured = (name, call) => (...words) => {
  assert.equal(words.length, call.length, name);
  const stack = () => new Uint8Array(memory.buffer, 0, SIZE);
  stack().fill(0xa5);
  const answer = call(...words);
  const lowest = stack().findIndex((byte) => byte !== 0xa5);
  used.set(name, Math.max(used.get(name) ?? 0, lowest < 0 ? 0 : SIZE - lowest));
  return answer;
};

await exportsOf((exports) => {
  memory = exports.memory;
  const wrapped = Object.entries(exports).map(([name, it]) => [name, typeof it === "function" ? measured(name, it) : it]);
  return Object.fromEntries(wrapped);
});

const of = (length) => Uint8Array.from({ length }, (_, at) => (at * 37 + 11) % 256);
const SERIALS = of(10 * 300);
for (const [Cipher, size] of [[library.Des, 8], [library.TdesEde2, 16], [library.TdesEde3, 24]]) {
  const cipher = new Cipher(of(size));
  for (const count of [0, 1, 3, 12, 31, 32, 128, 129, 300]) {
    for (const call of ["encryptEcb", "decryptEcb"]) cipher[call](of(8 * count));
    for (const call of ["encryptCbc", "decryptCbc"]) cipher[call](of(8 * count), { iv: of(8) });
    for (const call of ["encryptEach", "decryptEach"]) library[call](Cipher, of(size * count), of(8 * count));
    library.checkValues(Cipher, of(size * count));
    for (const call of ["encryptCbcRecords", "decryptCbcRecords"]) {
      library[call](cipher, of(24 * count), { vectors: of(8 * count), counts: Array(count).fill(3) });
    }
  }
  library.checkValue(Cipher, of(size));
  library.combine(of(size), of(size).reverse(), of(size));
}
const MACS = [
  ...[[library.CbcMacDes, 8, 1], [library.CbcMacTdesEde2, 16, 2], [library.CbcMacTdesEde3, 24, 1]],
  ...[[library.RetailMacDes, 16, 2], [library.CmacTdesEde2, 16, null], [library.CmacTdesEde3, 24, null]],
];
for (const [Mac, size, padding] of MACS) {
  const mac = new Mac(of(size), ...(padding === null ? [] : [padding])).update(of(1000));
  mac.verify(mac.digest());
  for (const count of [0, 1, 127, 128, 129, 300]) {
    library.macs(Mac, of(size), padding, Array(count).fill(21), of(21 * count));
    library.macsEach(Mac, of(size * count), padding, Array(count).fill(21), of(21 * count));
    library.wrongTags(of(8 * count), of(8 * count));
  }
}
for (const count of [0, 1, 128, 129, 300]) library.dukptTransactionKeysFromBase(of(16), SERIALS.subarray(0, 10 * count));
for (const Cipher of [library.Des, library.TdesEde2, library.TdesEde3]) {
  const cipher = new Cipher(of(Cipher.keySize));
  const begun = () => {
    const streams = [new library.Ctr(cipher, { counter: of(8) }), new library.Ofb(cipher, { iv: of(8) })];
    return [...streams, ...[1, 8, 64].map((segmentSize) => new library.Cfb(cipher, { iv: of(8), segmentSize }))];
  };
  const streams = { encrypt: begun(), decrypt: begun() };
  for (const length of [0, 3, 8, 1024, 1031, 2400]) {
    for (const direction of ["encrypt", "decrypt"]) {
      streams[direction][0].seek(length);
      for (const stream of streams[direction]) stream[direction](of(length));
      streams[direction][2][`${direction}Bits`](of(length), 8 * length);
      cipher[`${direction}Ctr`](of(length), { counter: of(8) });
      cipher[`${direction}Ofb`](of(length), { iv: of(8) });
      for (const segmentSize of [1, 8, 64]) cipher[`${direction}Cfb`](of(length), { iv: of(8), segmentSize });
    }
  }
}
for (const { name, words, error } of knownCalls()) if (error === undefined) run(name, words);
const terminal = new library.DukptTerminal(of(16), of(10));
for (let count = 0; count < 40; count += 1) terminal.nextKey();
library.emvApplicationCryptogram(of(16), of(300));
const header = { version: "B", usage: "P0", algorithm: "T", mode: "E", keyVersion: "00", exportability: "E" };
for (const optional of [[], Array(98).fill(["KS", ""]), [["CT", "x".repeat(9800)]]]) {
  const block = library.wrapKeyBlock(of(24), header, of(24), { optional });
  library.unwrapKeyBlock(of(24), block);
  library.keyBlockHeader(block);
  library.keyBlockContext(block);
  library.keyBlockOptionalBlocks(block);
}
const BY_NULL = { errors: "null" };
const ALGORITHMS = ["PBEWithMD5AndDES", "PBEWithMD5AndTripleDES", "PBEWithSHA1AndDESede"];
for (const count of [0, 1, 31, 128, 129, 300]) {
  const values = (...first) => Array.from({ length: count }, () => Uint8Array.of(...first, ...of(24)));
  library.mysqlDecryptValues(of(20), values(255), BY_NULL);
  for (const cipher of ["3des", "des-ecb/pad:none"]) library.pgcryptoDecryptValues(cipher, of(24), values(), BY_NULL);
  const string = Buffer.from(of(8 + 8 * count)).toString("base64");
  for (const algorithm of ALGORITHMS) {
    library.jasyptDecryptValues(of(20), [string], { algorithm, iterations: 3, ...BY_NULL });
    library.jasyptEncryptValues(of(20), [of(8 * count)], { algorithm, iterations: 3 });
  }
}
library.pbkdf2("sha256", of(100), of(100), 2, 100);
library.bytesToKey("sha256", of(100), of(8), 100);
const file = Uint8Array.from([...Buffer.from("Salted__"), ...of(8 * 300)]);
for (const Cipher of [library.Des, library.TdesEde2, library.TdesEde3]) {
  // One password in 256 fits, and then the whole file is decrypted.
  for (let at = 0, opened = false; !opened; at += 1) {
    try {
      library.openSalted(Cipher, Uint8Array.of(at, at >> 8), file);
      opened = true;
    } catch (error) {
      if (!(error instanceof library.PaddingMismatch)) throw error;
    }
  }
}

// Exports that give answers which others give, from one buffer to another; and those that the wrapper does not have.
const isOther = (name) => /_(encrypt|decrypt)_(ecb|cbc)_to$|_stream_position$|_values_by_file$|_(mysql|pgcrypto)_encrypt_values$/.test(name);
const module = new WebAssembly.Module(readFileSync(moduleFile));
assert.deepEqual(WebAssembly.Module.imports(module), []);
const exported = WebAssembly.Module.exports(module).filter(({ kind }) => kind === "function").map(({ name }) => name);
assert.deepEqual(exported.filter((name) => !used.has(name) && !isOther(name)), [], "exports that nothing calls");
const [name, most] = [...used].reduce((one, other) => (other[1] > one[1] ? other : one));
assert(most < SIZE / 2, `${name} takes ${most} bytes`);
console.log(`JavaScript: ${used.size} of ${exported.length} exports called, at most ${most} bytes of stack, by ${name}`);
