// known_answers.mjs FOLDER KNOWN_ANSWERS KNOWN_MACS: published values of ciphers and MACs, in lists and pieces of many lengths, terminals,
// key blocks; and that nothing stays in the module's memory.
import assert from "node:assert/strict";
import { BLOCK, KEY, PAIR, PROTECTION } from "./calls.mjs";
import { exportsOf, hex, is, library, linesOf, unhex } from "./common.mjs";

const [, answersFile, macsFile] = process.argv.slice(2);
const { memory, __heap_base: base } = await exportsOf();
const startOfArguments = Math.ceil(Number(base.value) / 16) * 16;
const data = () => hex(new Uint8Array(memory.buffer, 131072, startOfArguments - 131072));
const dataAtFirst = data();

const CIPHERS = { des: library.Des, ede2: library.TdesEde2, ede3: library.TdesEde3 };

/** Each list of the file that is of a cipher here: its class, key, plaintext, ciphertext, and of CBC the vector. */
function ciphertexts() {
  const lists = [];
  for (const line of linesOf(answersFile)) {
    const [name, ...words] = line.trim().split(/ +/);
    if (line.startsWith(" ")) {
      const last = lists.at(-1);
      last.plain += name;
      last.cipher += words[0];
    } else {
      lists.push({ name, key: words[0], plain: words[1], cipher: words[2], iv: words[3] });
    }
  }
  return lists.filter(({ name }) => name.split("-")[0] in CIPHERS);
}

const EDGES = [1, 2, 31, 32, 33, 127, 128, 129, 300];

function isList(Cipher, key, plain, cipher) {
  const instance = new Cipher(key);
  for (const copies of EDGES) {
    const [from, to] = [unhex(plain.repeat(copies)), unhex(cipher.repeat(copies))];
    is(instance.encryptEcb(from), hex(to));
    is(instance.decryptEcb(to), hex(from));
    const keys = new Uint8Array(key.length * (from.length / 8)).map((_, at) => key[at % key.length]);
    is(library.encryptEach(Cipher, keys, from), hex(to));
    is(library.decryptEach(Cipher, keys, to), hex(from));
    assert.equal(hex(library.checkValues(Cipher, keys)), hex(library.checkValue(Cipher, key)).repeat(from.length / 8));
  }
  instance.close();
}

function isByCbc(Cipher, key, iv, plain, cipher) {
  const instance = new Cipher(key);
  const [from, to] = [unhex(plain), unhex(cipher)];
  is(instance.encryptCbc(from, { iv }), cipher);
  is(instance.decryptCbc(to, { iv }), plain);
  // In two pieces, cut at each block.
  for (let at = 8; at < from.length; at += 8) {
    const first = instance.encryptCbc(from.subarray(0, at), { iv });
    is(instance.encryptCbc(from.subarray(at), { iv: first.subarray(-8) }), cipher.slice(2 * at));
    is(instance.decryptCbc(to.subarray(at), { iv: to.subarray(at - 8, at) }), plain.slice(2 * at));
  }
  // As many records, between which stands an empty one.
  for (const copies of EDGES) {
    const counts = Array.from({ length: 2 * copies }, (_, at) => (at % 2 === 0 ? from.length / 8 : 0));
    const vectors = unhex(hex(iv).repeat(2 * copies));
    is(library.encryptCbcRecords(instance, unhex(plain.repeat(copies)), { vectors, counts }), cipher.repeat(copies));
    const named = { vectors, counts: Uint32Array.from(counts) };
    is(library.decryptCbcRecords(instance, unhex(cipher.repeat(copies)), named), plain.repeat(copies));
  }
  instance.close();
}

let lists = 0;
for (const { name, key, plain, cipher, iv } of ciphertexts()) {
  const Cipher = CIPHERS[name.split("-")[0]];
  if (iv === undefined) isList(Cipher, unhex(key), plain, cipher);
  else isByCbc(Cipher, unhex(key), unhex(iv), plain, cipher);
  lists += 1;
}
assert(lists >= 40);

// ---- MACs

const KINDS = {
  cbc_mac_des: library.CbcMacDes, cbc_mac_tdes_ede2: library.CbcMacTdesEde2, cbc_mac_tdes_ede3: library.CbcMacTdesEde3,
  retail_mac_des: library.RetailMacDes, cmac_tdes_ede2: library.CmacTdesEde2, cmac_tdes_ede3: library.CmacTdesEde3,
};

function isMac(Mac, key, padding, message, tag) {
  const make = (...first) => (padding === null ? new Mac(key, ...first) : new Mac(key, padding, ...first));
  is(make(message).digest(), tag);
  const pieces = make();
  for (let at = 0; at < message.length; at += 1 + (at % 13)) {
    assert.equal(pieces.update(message.subarray(at, at + 1 + (at % 13))), pieces);
  }
  assert.equal(pieces.digest("hex"), tag);
  assert.equal(pieces.verify(unhex(tag)), true);
  const copy = pieces.copy();
  pieces.update(Uint8Array.of(1, 2, 3));
  assert.notEqual(pieces.digest("hex"), tag);
  assert.equal(copy.digest("hex"), tag);
  for (let length = 0; length < 12; length += 1) {
    const given = Uint8Array.from({ length }, (_, at) => unhex(tag)[at] ?? 0);
    for (const call of ["verify", "verifyTruncatedLeft"]) {
      const least = call === "verify" ? 8 : 4;
      if (length >= least && length <= 8) assert.equal(copy[call](given), true);
      else assert.throws(() => copy[call](given), library.TagMismatch);
      if (length === 0) continue;
      for (let bit = 0; bit < 8 * length; bit += 7) {
        const other = given.slice();
        other[bit >> 3] ^= 1 << (bit & 7);
        assert.throws(() => copy[call](other), library.TagMismatch);
      }
    }
  }
}

const rows = linesOf(macsFile).map((line) => {
  const [name, method, key, length, tag] = line.split(" ");
  const message = Uint8Array.from({ length: Number(length) }, (_, at) => at % 251);
  return { Mac: KINDS[name], padding: method === "-" ? null : Number(method), key: unhex(key), message, tag };
});
for (const { Mac, padding, key, message, tag } of rows) isMac(Mac, key, padding, message, tag);
// All messages of one kind, key and padding together, 130 times over.
for (const first of new Set(rows.map(({ Mac, padding, key }) => JSON.stringify([Mac.name, padding, hex(key)])))) {
  const same = rows.filter(({ Mac, padding, key }) => JSON.stringify([Mac.name, padding, hex(key)]) === first);
  const [{ Mac, padding, key }] = same;
  const many = Array.from({ length: 130 }, () => same).flat();
  const lengths = many.map(({ message }) => message.length);
  const messages = unhex(many.map(({ message }) => hex(message)).join(""));
  const tags = many.map(({ tag }) => tag).join("");
  is(library.macs(Mac, key, padding, lengths, messages), tags);
  is(library.macsEach(Mac, unhex(hex(key).repeat(many.length)), padding, lengths, messages), tags);
}
assert(rows.length > 150);

// NIST SP 800-38B, and ISO/IEC 9797-1, annex B.
const THREE = unhex("8aa83bf8cbda10620bc1bf19fbb6cd58bc313d4a371ca8b5");
is(new library.CmacTdesEde3(THREE).digest(), "b7a688e122ffaf95");
is(new library.CmacTdesEde3(THREE, unhex("6bc1bee22e409f96")).digest(), "8e8f293136283797");
is(new library.RetailMacDes(PAIR, 1, Buffer.from("Now is the time for all ")).digest(), "a1c72e74ea3fa9b6");
is(new library.RetailMacDes(PAIR, 2, Buffer.from("Now is the time for all ")).digest(), "e9086230ca3be796");
is(new library.RetailMacDes(PAIR, 2, unhex("38413d4ba2325cf1141f707471ac2ced57db530f0123b5ac")).digest(), "cbedb61c18323675");
is(new library.CbcMacDes(PAIR.subarray(0, 8), 1, Buffer.from("Now is the time for it")).digest(), "e45b3ad2b7cc0856");

const TAGS = unhex(rows.map(({ tag }) => tag).join(""));
assert.deepEqual(library.wrongTags(TAGS, TAGS.slice()), []);
for (let at = 0; at < TAGS.length; at += 5) {
  const other = TAGS.slice();
  other[at] ^= 1 << (at % 8);
  assert.deepEqual(library.wrongTags(other, TAGS), [at >> 3]);
}

// ---- Padding

for (const [method, marks] of [["pkcs7", null], ["iso7816", "80"]]) {
  for (let length = 0; length < 40; length += 1) {
    const bytes = Uint8Array.from({ length }, (_, at) => at + 1);
    const count = 8 - (length % 8);
    const padding = marks === null ? count.toString(16).padStart(2, "0").repeat(count) : marks + "00".repeat(count - 1);
    is(library.pad(bytes, method), hex(bytes) + padding);
    is(library.unpad(library.pad(bytes, method), method), hex(bytes));
  }
}

// ---- A terminal has the host's keys, and goes on from its state

const INITIAL = unhex("6ac292faa1315b4d858ab3a3d7d5933a");
let terminal = new library.DukptTerminal(INITIAL, unhex("ffff9876543210fabcde"));
let next = "ffff9876543210e00001";
for (let count = 0; count < 600; count += 1) {
  const { serial, key } = terminal.nextKey();
  is(serial, next);
  is(key, hex(library.dukptTransactionKey(INITIAL, serial)));
  next = hex(library.dukptNextSerial(serial));
  if (count % 7 === 0) terminal = library.DukptTerminal.fromState(terminal.state());
}

// ---- Key blocks: of random padding, which is the engine's and hides the length of a key, with optional blocks of each kind and length.
// The vector of a key wrap is the engine's too.

for (const [version, optional] of [["B", []], ["C", [["KS", "00604B120F9292800000"]]], ["B", new Map([["KV", "ABCDEF"]])]]) {
  const of = { ...library.keyBlockHeader(BLOCK), version };
  const filled = optional instanceof Map ? [["KV", "ABCDEF"], ["PB", "00"]] : optional;
  for (let size = 8; size <= 24; size += 8) {
    const [made, again] = [1, 2].map(() => library.wrapKeyBlock(KEY, of, KEY.subarray(0, size), { optional }));
    assert.deepEqual(library.keyBlockOptionalBlocks(made), filled);
    assert.notEqual(made, again, "the padding is random");
    assert.equal(made.length, library.wrapKeyBlock(KEY, of, KEY, { optional }).length, "the length of the key is hidden");
    const opened = library.unwrapKeyBlock(KEY, made);
    is(opened.key, hex(KEY.subarray(0, size)));
    assert.deepEqual(opened.header, of);
  }
}
const wraps = (options) => library.wrapKeyBlock(PROTECTION, library.keyBlockHeader(BLOCK), PAIR, options);
crypto.getRandomValues = (bytes) => bytes.fill(0xa1);
const [withRandom, withVector] = [wraps(), library.cmsWrapKey(PROTECTION, PAIR)];
delete crypto.getRandomValues;
assert.equal(withRandom, wraps({ padding: new Uint8Array(14).fill(0xa1) }));
is(withVector, hex(library.cmsWrapKey(PROTECTION, PAIR, { iv: new Uint8Array(8).fill(0xa1) })));
for (const length of [0, 1, 250, 251, 252, 9800]) {
  const content = " ~x".repeat(length).slice(0, length);
  const made = wraps({ optional: [["CT", content]] });
  assert.deepEqual(library.keyBlockOptionalBlocks(made)[0], ["CT", content]);
  is(library.unwrapKeyBlock(PROTECTION, made).key, hex(PAIR));
}

// ---- A long list, for which the memory grows; and nothing stays.

const LONG = 1 << 20;
const cipher = new library.TdesEde3(THREE);
const long = new Uint8Array(LONG).map((_, at) => at % 251);
const answer = cipher.encryptEcb(long);
assert.equal(hex(answer.subarray(-8)), hex(cipher.encryptEcb(long.subarray(-8))));
assert.equal(hex(cipher.decryptEcb(answer)), hex(long));
assert(memory.buffer.byteLength > LONG);
assert(new Uint8Array(memory.buffer, 0, 131072).every((byte) => byte === 0), "the stack is wiped");
assert(new Uint8Array(memory.buffer, startOfArguments).every((byte) => byte === 0), "the arguments are wiped");
assert.throws(() => library.unwrapKeyBlock(KEY, BLOCK), { name: "KeyBlockMac" });
assert(new Uint8Array(memory.buffer, 0, 131072).every((byte) => byte === 0), "the stack is wiped after an error");
assert(new Uint8Array(memory.buffer, startOfArguments).every((byte) => byte === 0), "the arguments are wiped after an error");
assert.equal(data(), dataAtFirst, "the module's own data stay");
console.log(`JavaScript: ${lists} known ciphertexts and ${rows.length} tags, terminals and key blocks, nothing left in memory`);
