// streams.mjs FOLDER: random texts by CTR, OFB and CFB, whole and cut at random, beside the ciphers of node:crypto; and what of streams
// no other test says. The numbers are the same each time.
import assert from "node:assert/strict";
import { createCipheriv, createDecipheriv } from "node:crypto";
import { hex, is, library, throwsFault, unhex } from "./common.mjs";

await library.load();

const COUNT = 20000;
const SEGMENTS = [1, 8, 16, 24, 32, 40, 48, 56, 64];
const KEY = unhex("0123456789abcdef23456789abcdef01456789abcdef0123");
const IV = unhex("1234567890abcdef");
const TEXT = Uint8Array.from(Buffer.from("The qufck brown fox jump"));

let state = 2026;
function random(below) {
  state = (state + 0x9e3779b9) >>> 0;
  let z = state;
  z = Math.imul(z ^ (z >>> 16), 0x21f0aaad);
  z = Math.imul(z ^ (z >>> 15), 0x735a2d97);
  return ((z ^ (z >>> 15)) >>> 0) % below;
}
const one = (list) => list[random(list.length)];
const bytes = (length) => Uint8Array.from({ length }, () => random(256));

/** A cipher's calls and class by the mode, with what goes by name. */
const NAMES = { ctr: "Ctr", ofb: "Ofb", cfb: "Cfb" };
function namedOf([mode, segmentSize], vector) {
  if (mode === "ctr") return { counter: vector };
  return mode === "ofb" ? { iv: vector } : { iv: vector, segmentSize };
}
const MODES = [["ctr"], ["ofb"], ...SEGMENTS.map((size) => ["cfb", size])];

// ---- Beside node:crypto: of triple DES, since DES is in OpenSSL's legacy provider alone

/** What node:crypto makes of a text: OFB, and CFB with segments of 1, 8 and 64 bits, by its own modes, the others over its ECB. */
function byNode(key, [mode, size], vector, data, encrypts) {
  const name = key.length === 16 ? "des-ede" : "des-ede3";
  const own = { 1: "cfb1", 8: "cfb8", 64: "cfb" }[size];
  if (mode === "ofb" || (own !== undefined && (key.length === 24 || size === 64))) {
    const made = (encrypts ? createCipheriv : createDecipheriv)(`${name}-${mode === "ofb" ? "ofb" : own}`, key, vector);
    return Buffer.concat([made.update(data), made.final()]);
  }
  const ecb = createCipheriv(key.length === 16 ? "des-ede" : "des-ede3", key, null).setAutoPadding(false);
  const block = (given) => ecb.update(given);
  if (mode === "ctr") {
    const first = Buffer.from(vector).readBigUInt64BE();
    const counters = Buffer.alloc(Math.ceil(data.length / 8) * 8);
    for (let at = 0; at < counters.length; at += 8) counters.writeBigUInt64BE(BigInt.asUintN(64, first + BigInt(at / 8)), at);
    const stream = block(counters);
    return data.map((byte, at) => byte ^ stream[at]);
  }
  const made = Uint8Array.from(data);
  if (size === 1) {
    let register = Buffer.from(vector).readBigUInt64BE();
    for (let at = 0; at < 8 * data.length; at += 1) {
      const given = (data[at >> 3] >> (7 - (at & 7))) & 1;
      const input = Buffer.alloc(8);
      input.writeBigUInt64BE(register);
      const answer = given ^ (block(input)[0] >> 7);
      made[at >> 3] = (made[at >> 3] & ~(0x80 >> (at & 7))) | (answer << (7 - (at & 7)));
      register = BigInt.asUintN(64, (register << 1n) | BigInt(encrypts ? answer : given));
    }
    return made;
  }
  let register = Buffer.from(vector);
  for (let at = 0; at < data.length; at += size / 8) {
    const output = block(register);
    const given = data.subarray(at, at + size / 8);
    const answer = given.map((byte, place) => byte ^ output[place]);
    made.set(answer, at);
    register = Buffer.concat([register, encrypts ? answer : given]).subarray(-8);
  }
  return made;
}

const CIPHERS = Array.from({ length: 24 }, (_, at) => {
  const key = bytes(at % 2 === 0 ? 16 : 24);
  return [key, new (at % 2 === 0 ? library.TdesEde2 : library.TdesEde3)(key)];
});
for (let number = 0; number < COUNT; number += 1) {
  const [key, cipher] = one(CIPHERS);
  const mode = one([MODES[0], MODES[1], one(MODES.slice(2))]);
  const [vector, data] = [bytes(8), bytes(random(number % 16 === 0 && mode[1] !== 1 ? 400 : 24))];
  const direction = one(["encrypt", "decrypt"]);
  const wanted = hex(byNode(key, mode, vector, data, direction === "encrypt"));
  const named = namedOf(mode, vector);
  if (number % 2 === 0) {
    is(cipher[`${direction}${NAMES[mode[0]]}`](data, named), wanted);
    continue;
  }
  const stream = new library[NAMES[mode[0]]](cipher, named);
  let made = "";
  for (let at = 0; at < data.length;) {
    const end = at + random(data.length - at + 1);
    made += hex(stream[direction](data.subarray(at, end)));
    at = end;
  }
  assert.equal(made, wanted, `${number}: ${mode}, ${direction}, ${data.length}`);
}

// ---- Places, bits, copies

const cipher = new library.TdesEde3(KEY);
const whole = cipher.encryptCtr(new Uint8Array(100), { counter: IV });
const ctr = new library.Ctr(cipher, { counter: IV });
for (const place of [...whole.keys(), 3, 99, 0, 8, 7]) {
  for (const position of [place, BigInt(place)]) {
    assert.equal(ctr.seek(position), undefined);
    is(ctr.copy().encrypt(new Uint8Array(100 - place)), hex(whole.subarray(place)));
    is(ctr.decrypt(new Uint8Array(100 - place)), hex(whole.subarray(place)));
  }
}
ctr.seek(2n ** 67n - 5n);
is(ctr.encrypt(new Uint8Array(11)).slice(5), hex(whole.subarray(0, 6)));
for (const wrong of [-1, 0.5, NaN, Infinity, 2 ** 53, -1n, 2n ** 67n, 2n ** 100n]) {
  throwsFault(() => ctr.seek(wrong), "Position", "a position in a stream is 0 to 2^67 - 1, from 2^53 on a BigInt");
}
is(ctr.encrypt(new Uint8Array(4)), hex(whole.subarray(6, 10)));

const digits = (data) => Array.from(data, (byte) => byte.toString(2).padStart(8, "0")).join("");
const answer = cipher.encryptCfb(TEXT, { iv: IV, segmentSize: 1 });
for (const [call, given, wanted] of [["encryptBits", TEXT, answer], ["decryptBits", answer, TEXT]]) {
  for (let cut = 0; cut <= 40; cut += 1) {
    const stream = new library.Cfb(cipher, { iv: IV, segmentSize: 1 });
    const rest = `${digits(given.subarray(0, 5)).slice(cut)}10110101`;
    const others = Uint8Array.from((rest.length >= 8 ? rest : rest.padEnd(8, "1")).match(/.{8}/g), (byte) => parseInt(byte, 2));
    const first = stream[call](given, cut);
    assert.equal(digits(first), digits(wanted).slice(0, cut) + digits(given).slice(cut));
    const second = stream[call](others, 40 - cut);
    assert.equal(digits(second).slice(0, 40 - cut), digits(wanted).slice(cut, 40));
    assert.equal(digits(second).slice(40 - cut), digits(others).slice(40 - cut));
  }
}
for (const mode of MODES) {
  const stream = new library[NAMES[mode[0]]](cipher, namedOf(mode, IV));
  const wanted = hex(cipher[`encrypt${NAMES[mode[0]]}`](TEXT, namedOf(mode, IV)));
  is(stream.encrypt(TEXT.subarray(0, 11)), wanted.slice(0, 22));
  const copy = stream.copy();
  assert.equal(copy.constructor, stream.constructor);
  is(stream.encrypt(TEXT.subarray(11)), wanted.slice(22));
  stream.close();
  is(copy.encrypt(TEXT.subarray(11)), wanted.slice(22));
  assert.deepEqual([JSON.stringify(copy), Object.keys(copy)], ["{}", []]);
}

// A stream goes in one direction, once a byte or a bit has, and a copy in the same; CTR in either from a position on.
for (const mode of MODES) {
  const [name, named] = [NAMES[mode[0]], namedOf(mode, IV)];
  for (const [direction, other] of [["encrypt", "decrypt"], ["decrypt", "encrypt"]]) {
    const stream = new library[name](cipher, named);
    stream[other](new Uint8Array(0));
    const first = hex(stream[direction](TEXT.subarray(0, 5)));
    const wanted = hex(cipher[`${direction}${name}`](TEXT, named));
    for (const one of [stream, stream.copy()]) {
      const calls = [[other, TEXT], [other, new Uint8Array(0)], ...(mode[1] === 1 ? [[`${other}Bits`, TEXT, 3]] : [])];
      for (const [call, ...words] of calls) {
        throwsFault(() => one[call](...words), "Direction", `this stream ${direction}s: begin another to ${other}`);
      }
      assert.equal(first + hex(one[direction](TEXT.subarray(5))), wanted);
    }
    if (mode[0] === "ctr") {
      stream.seek(5);
      assert.equal(first + hex(stream[other](TEXT.subarray(5))), wanted);
    }
  }
}
const bits = new library.Cfb(cipher, { iv: IV, segmentSize: 1 });
bits.encryptBits(TEXT, 0);
const unused = bits.copy();
bits.decryptBits(TEXT, 1);
throwsFault(() => bits.encryptBits(TEXT, 1), "Direction");
unused.encryptBits(TEXT, 1);

// A stream of a cipher that a caller derives, and a class of streams that he derives.
const derived = new (class extends library.Ofb {})(new (class extends library.Des {})(KEY.subarray(0, 8)), { iv: IV });
is(derived.copy().encrypt(TEXT), hex(new library.Des(KEY.subarray(0, 8)).encryptOfb(TEXT, { iv: IV })));

// The vector that was given is read once, and never written.
const counter = Uint8Array.from(IV);
const kept = new library.Ctr(cipher, { counter });
assert.deepEqual(counter, IV);
counter.fill(0);
for (const stream of [kept, kept.copy()]) {
  stream.seek(0);
  is(stream.encrypt(new Uint8Array(100)), hex(whole));
}

console.log(`JavaScript: ${COUNT} texts in modes without padding, as by node:crypto`);
