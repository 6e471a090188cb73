// random_calls.mjs FOLDER SEED COUNT: makes COUNT random calls of the wrapper, and writes a line for each: the call, its
// arguments, and what came back or was thrown, which is an error that the types name of the call. beside_native.py reads them.
import assert from "node:assert/strict";
import { once } from "node:events";
import { readFileSync } from "node:fs";
import { folder, hex, library } from "./common.mjs";

const [, seed, count] = process.argv.slice(2).map(Number);
await library.load();

// ---- Random numbers, the same from the same seed (splitmix32)

let state = seed >>> 0;
function random(below) {
  state = (state + 0x9e3779b9) >>> 0;
  let z = state;
  z = Math.imul(z ^ (z >>> 16), 0x21f0aaad);
  z = Math.imul(z ^ (z >>> 15), 0x735a2d97);
  return ((z ^ (z >>> 15)) >>> 0) % below;
}
const one = (list) => list[random(list.length)];
const often = (right, wrong) => (random(16) === 0 ? wrong() : right());
const bytes = (length) => Uint8Array.from({ length }, () => random(256));
const times = (number, make) => Array.from({ length: number }, make);
const joined = (parts) => Uint8Array.from(parts.flatMap((part) => [...part]));

// ---- Arguments, mostly right ones

const WEAK = ["0101010101010101", "fefefefefefefefe", "01fe01fe01fe01fe", "1f1f1f1f0e0e0e0e", "011f011f010e010e"];
const weak = () => Uint8Array.from(one(WEAK).match(/../g), (pair) => parseInt(pair, 16) ^ random(2));
const rightKey = (size) => (random(4) === 0 ? joined(times(size / 8, weak)) : bytes(size));
const key = (size) => often(() => rightKey(size), () => bytes(random(34)));
const anyKey = () => key(one([8, 16, 24]));
const blocks = () => often(() => bytes(8 * one([0, 1, 2, random(40), random(300)])), () => bytes(random(200)));
const vector = () => often(() => bytes(8), () => bytes(random(12)));
const rightSerial = () => bytes(10).map((byte, at) => (at > 7 && random(3) === 0 ? 255 : byte));
const serial = () => often(rightSerial, () => bytes(random(14)));
const message = () => bytes(one([0, 8, 16, random(64), random(400)]));
const padding = () => often(() => 1 + random(2), () => random(4));
const method = () => often(() => one(["pkcs7", "iso7816"]), () => "pkcs5");

const ODD_CHARACTERS = ["x", " ", "/", ":", "~", "\u0000", "\u001f", "\u007f", "\u00b2", "\uff14", "\u{1f600}"];
const digits = (least, most) => times(least + random(most - least + 1), () => String(random(10))).join("");
const oddDigits = (least, most) => digits(least, most).replace(/.$/, () => one(ODD_CHARACTERS));
const text = (least, most) => often(() => digits(least, most), () => one([digits(0, 24), oddDigits(least, most)]));
const pin = () => text(4, 12);
const account = () => text(one([8, 12, 13]), 19);
const digitBytes = (least) => bytes(10).map((byte) => least + (byte % (16 - least)));
const fill = (least) => often(() => digitBytes(least), () => one([bytes(10), bytes(random(14))]));

// Elements of a list, as many as there should be, mostly.
const elements = (size, count_) => often(() => bytes(size * count_), () => bytes(random(80)));

const CIPHERS = { Des: 8, TdesEde2: 16, TdesEde3: 24 };
const PADDED = { CbcMacDes: 8, CbcMacTdesEde2: 16, CbcMacTdesEde3: 24, RetailMacDes: 16 };
const CMACS = { CmacTdesEde2: 16, CmacTdesEde3: 24 };
const entry = (kinds) => one(Object.entries(kinds));

// Numbers that add up to a sum, mostly.
function parts(sum, length) {
  const cuts = times(length - 1, () => random(sum + 1)).sort((first, second) => first - second);
  const numbers = times(length, (_, at) => (cuts[at] ?? sum) - (at === 0 ? 0 : cuts[at - 1]));
  return often(() => numbers, () => numbers.with(random(length), random(sum + 2)));
}

// ---- Kinds of calls: each gives a name and arguments

function ecb() {
  const [name, size] = entry(CIPHERS);
  return [`${name}.${one(["encryptEcb", "decryptEcb"])}`, key(size), blocks()];
}

function cbc() {
  const [name, size] = entry(CIPHERS);
  return [`${name}.${one(["encryptCbc", "decryptCbc"])}`, key(size), blocks(), { iv: vector() }];
}

const segment = () => often(() => one([1, 8, 16, 24, 32, 40, 48, 56, 64]), () => random(70));
const MODES = {
  Ctr: () => ({ counter: vector() }),
  Ofb: () => ({ iv: vector() }),
  Cfb: () => ({ iv: vector(), segmentSize: segment() }),
};

function inMode() {
  const [name, size] = entry(CIPHERS);
  const [mode, named] = entry(MODES);
  return [`${name}.${one(["encrypt", "decrypt"])}${mode}`, key(size), message(), named()];
}

// The cipher, what its stream takes by name, and calls of the stream, one after the other.
function stream() {
  const [name, size] = entry(CIPHERS);
  const [mode, named] = entry(MODES);
  const calls = () => {
    if (mode === "Ctr" && random(3) === 0) return ["seek", often(() => random(1000), () => -1)];
    if (mode === "Cfb" && random(4) === 0) return [one(["encryptBits", "decryptBits"]), bytes(random(9)), random(66)];
    return [one(["encrypt", "decrypt"]), message()];
  };
  return [`Stream.${mode}`, { cipher: [name, bytes(size)] }, named(), times(random(5), calls)];
}

function keyWrap() {
  const protection = key(one([16, 24]));
  const plainKey = bytes(one([8, 8, 16, 24, 32, random(40)]));
  const random_ = random(4);
  if (random_ === 0) return ["cmsWrapKey", protection, plainKey, { iv: vector() }];
  if (random_ === 1) return ["tkwWrapKey", protection, plainKey];
  const [wrap, call] = random_ === 2
    ? [() => library.cmsWrapKey(protection, plainKey, { iv: bytes(8) }), "cmsUnwrapKey"]
    : [() => library.tkwWrapKey(protection, plainKey), "tkwUnwrapKey"];
  const isRight = [16, 24].includes(protection.length) && plainKey.length > 0 && plainKey.length % 8 === 0;
  const wrapped = isRight ? wrap() : bytes(random(60));
  const changed = () => wrapped.map((byte, at) => (at === 3 ? byte ^ 1 : byte));
  return [call, often(() => protection, () => key(24)), often(() => wrapped, changed)];
}

// The arguments of the constructor, the pieces of a message, and how much of the tag is verified.
function paddedMac() {
  const [name, size] = entry(PADDED);
  return [name, [key(size), padding()], times(random(5), message), random(9)];
}

function cmac() {
  const [name, size] = entry(CMACS);
  return [name, [key(size)], times(random(5), message), random(9)];
}

function unpad() {
  const by = one(["pkcs7", "iso7816"]);
  const data = library.pad(message(), by);
  const changed = data.with(data.length - 1 - random(8), random(256));
  return ["unpad", one([data, data, changed, bytes(random(40))]), often(() => by, method)];
}

function equalButParity() {
  const first = anyKey();
  const near = first.map((byte) => byte ^ random(2) ^ (random(40) === 0 ? 2 : 0));
  return ["equalButParity", first, often(() => near, anyKey)];
}

function checkValue() {
  const [name, size] = entry(CIPHERS);
  return ["checkValue", { class: name }, key(size)];
}

function combine() {
  const size = one([8, 16, 24]);
  const first = key(size);
  return ["combine", first, ...times(1 + random(4), () => (random(9) === 0 ? first : key(size)))];
}

function pinDecode() {
  const format = one([0, 1, 3]);
  const [digitsOfPin, number] = [digits(4, 12), digits(13, 19)];
  const encoders = {
    0: () => library.pinEncode0(digitsOfPin, number),
    1: () => library.pinEncode1(digitsOfPin, digitBytes(0)),
    3: () => library.pinEncode3(digitsOfPin, number, digitBytes(10)),
  };
  const block = encoders[format]();
  const changed = block.map((byte) => byte ^ (random(8) === 0 ? 1 << random(8) : 0));
  const given = one([block, block, changed, vector()]);
  return [`pinDecode${format}`, given, ...(format === 1 ? [] : [often(() => number, account)])];
}

function each() {
  const [name, size] = entry(CIPHERS);
  const length = random(one([4, 4, 300]));
  return [one(["encryptEach", "decryptEach"]), { class: name }, elements(size, length), elements(8, length)];
}

function checkValues() {
  const [name, size] = entry(CIPHERS);
  return ["checkValues", { class: name }, elements(size, random(300))];
}

function records() {
  const [name, size] = entry(CIPHERS);
  const length = 1 + random(one([4, 4, 140]));
  const sum = random(3 * length);
  const cipher = { cipher: [name, bytes(size)] };
  const call = one(["encryptCbcRecords", "decryptCbcRecords"]);
  return [call, cipher, elements(8, sum), { vectors: elements(8, length), counts: parts(sum, length) }];
}

function macs() {
  const isCmac = random(3) === 0;
  const [name, size] = entry(isCmac ? CMACS : PADDED);
  const length = 1 + random(one([4, 4, 140]));
  const sum = random(20 * length);
  const words = [isCmac ? null : padding(), parts(sum, length), bytes(sum)];
  if (random(2) === 0) return ["macs", { class: name }, key(size), ...words];
  return ["macsEach", { class: name }, elements(size, length), ...words];
}

function wrongTags() {
  const right = bytes(8 * random(one([3, 140])));
  const given = right.map((byte) => (random(60) === 0 ? byte ^ (1 << random(8)) : byte));
  return ["wrongTags", given, often(() => right, () => bytes(random(40)))];
}

function translate() {
  const format = one([0, 1, 3]);
  const [digitsOfPin, number] = [digits(4, 12), digits(8, 19)];
  const [incoming, outgoing] = times(2, () => bytes(one([8, 16, 24])));
  const encoders = {
    0: () => library.pinEncode0(digitsOfPin, number),
    1: () => library.pinEncode1(digitsOfPin, digitBytes(0)),
    3: () => library.pinEncode3(digitsOfPin, number, digitBytes(10)),
  };
  const cipher = { 8: library.Des, 16: library.TdesEde2, 24: library.TdesEde3 }[incoming.length];
  const sent = new cipher(incoming).encryptEcb(encoders[format]());
  const keys = { incomingKey: often(() => incoming, anyKey), outgoingKey: often(() => outgoing, anyKey) };
  const words = [often(() => format, () => random(6)), often(() => number, account)];
  const block = often(() => sent, vector);
  if (random(3) === 0) return ["pinTranslateTo1", block, keys];
  return random(2) === 0 ? ["pinTranslateTo0", ...words, block, keys] : ["pinTranslateTo3", ...words, fill(10), block, keys];
}

const index = () => often(() => 1 + random(6), () => random(9));

function pvvVerify() {
  const words = [bytes(16), digits(12, 19), 1 + random(6), digits(4, 12)];
  const value = library.pvv(...words);
  return ["pvvVerify", ...words.with(3, often(() => words[3], pin)), often(() => value, () => text(4, 4))];
}

// A decimalization table is written by its digits.
const table = () => ({ table: one(["0123456789012345", "8351296477461538", `98765432${digits(8, 8)}`]) });

function offsetVerify() {
  const decimals = table();
  const words = [bytes(one([8, 16, 24])), decimals, bytes(8)];
  const pinOf = digits(4, 12);
  const offset = library.pinOffset(words[0], new library.DecimalTable(decimals.table), words[2], pinOf);
  return ["pinOffsetVerify", ...words, often(() => pinOf, pin), often(() => offset, pin)];
}

// A key block: a header is written by its fields, and a block that is read is one that was made, or nearly one.
const letter = () => one(["A", "B", "D", "E", "N", "P", "S", "T", "0", "5", "x"]);
const header = () => ({
  version: often(() => one(["B", "C"]), () => one(["A", "D", ""])),
  usage: letter() + letter(),
  algorithm: letter(),
  mode: often(letter, () => one(["", " ", "EE"])),
  keyVersion: letter() + letter(),
  exportability: letter(),
});
const optionalBlocks = () => times(random(3), () => [
  often(() => letter() + letter(), () => one([letter(), "PB"])), often(() => digits(0, one([9, 260])), () => oddDigits(1, 5)),
]);
// A name that a block is made with: any but that of the block which is added.
const rightName = () => {
  const name = letter() + letter();
  return name === "PB" ? "KS" : name;
};
const rightBlock = (protection) => {
  const padding_ = bytes(one([6, 14]));
  const of = { ...header(), version: one(["B", "C"]), mode: letter() };
  const optional = times(random(3), () => [rightName(), digits(0, one([9, 260]))]);
  return library.wrapKeyBlock(protection, of, bytes(one([8, 16])), { optional, padding: padding_ });
};
const changedText = (text_) => {
  const at = random(text_.length);
  return text_.slice(0, at) + one([...ODD_CHARACTERS, "0", "1", "A", "B", ""]) + text_.slice(at + 1);
};

function keyBlock() {
  const protection = bytes(one([16, 24]));
  const block = rightBlock(protection);
  const given_ = one([block, block, changedText(block)]);
  if (random(2) === 0) return [one(["keyBlockHeader", "keyBlockContext", "keyBlockOptionalBlocks"]), given_];
  return ["unwrapKeyBlock", often(() => protection, () => key(one([16, 24]))), given_];
}

function wrapKeyBlock() {
  const plainKey = key(one([8, 16, 24]));
  const size = Math.max(0, 30 - plainKey.length - 8 * random(2));
  const options = { optional: optionalBlocks(), padding: often(() => bytes(size), () => bytes(random(32))) };
  return ["wrapKeyBlock", key(one([16, 24])), header(), plainKey, options];
}

// OpenSSL's function takes eight bytes of salt, or none.
const salt = () => often(() => bytes(one([0, 8, 8, 8])), () => bytes(random(20)));
const hashName = () => often(() => one(["sha1", "sha256"]), () => one(["md5", "sha512"]));
const iterations = () => often(() => 1 + random(20), () => one([0, -1, 2 ** 32]));

function openSalted() {
  const [name] = entry(CIPHERS);
  const file = joined([Buffer.from(often(() => "Salted__", () => "salted__")), bytes(8 * (1 + random(5)))]);
  const cut = often(() => file, () => file.subarray(0, random(file.length)));
  const by = random(2) === 0 ? { hashName: one(["md5", "sha1", "sha256"]) } : { hashName: hashName(), iterations: iterations() };
  return ["openSalted", { class: name }, bytes(random(70)), Uint8Array.from(cut), by];
}

// A column of values, mostly right ones, of which some are none.
const column = (value) => times(random(6), () => often(() => one([value(), value(), value(), null]), () => bytes(random(30))));
const password = () => bytes(random(40));

/** What DES_ENCRYPT of MySQL writes. */
function mysqlValue(by) {
  const text = bytes(random(30));
  const missing = 8 - (text.length % 8);
  const padded = joined([text, new Uint8Array(missing - 1).fill(42), [missing]]);
  const cipher = new library.TdesEde3(library.bytesToKey("md5", by, new Uint8Array(), 24));
  return joined([[128 + random(128)], cipher.encryptCbc(padded, { iv: new Uint8Array(8) })]);
}

function mysqlColumn() {
  const by = password();
  return ["mysqlDecryptValues", by, column(() => mysqlValue(one([by, by, by, password()])))];
}

/** What pgcrypto writes by 3des. */
function pgcryptoValue(keyBytes, iv) {
  const filled = (given_, size) => Uint8Array.from({ length: size }, (_, at) => given_[at] ?? 0);
  return new library.TdesEde3(filled(keyBytes, 24)).encryptCbc(library.pad(bytes(random(30)), "pkcs7"), { iv: filled(iv, 8) });
}

function pgcryptoColumn() {
  const [keyBytes, iv] = [bytes(random(34)), bytes(one([0, 8, random(12)]))];
  const names = ["3des", "3DES-CBC", "des", "3des-ecb", "des-ecb/pad:none", "3des/pad:pkcs"];
  const cipher = often(() => one(names), () => one(["aes", "", "des3"]));
  return ["pgcryptoDecryptValues", cipher, keyBytes, column(() => pgcryptoValue(keyBytes, iv)), { iv }];
}

const ALGORITHMS = { PBEWithMD5AndDES: 16, PBEWithMD5AndTripleDES: 32, PBEWithSHA1AndDESede: 32 };

function jasyptColumn() {
  const [[algorithm], by, count_] = [entry(ALGORITHMS), Buffer.from(digits(0, 12)), 1 + random(9)];
  const string = () => {
    const made = library.jasyptEncrypt(by, bytes(random(30)), { algorithm, iterations: count_, salt: bytes(8) });
    const others = [made.slice(0, random(40)), made.replace(/.$/, () => one([...ODD_CHARACTERS, "=", "A"]))];
    return one([made, `ENC(${made})`, Buffer.from(made), ...others]);
  };
  const options = { algorithm: often(() => algorithm, () => "PBEWithSHA1AndDES"), iterations: often(() => count_, iterations) };
  return ["jasyptDecryptValues", Uint8Array.from(by), times(random(6), () => one([string(), string(), string(), null])), options];
}

function jasyptTexts() {
  const [texts, by] = [column(() => bytes(random(30))), Uint8Array.from(Buffer.from(digits(0, 12)))];
  const size = 8 * texts.filter((text) => text !== null).length;
  const [[algorithm], salts] = [entry(ALGORITHMS), bytes(often(() => size, () => random(40)))];
  return ["jasyptEncryptValues", by, texts, { algorithm, iterations: iterations(), salts }];
}

function pbeKey() {
  const [algorithm, size] = entry({ ...ALGORITHMS, PBEWithSHA1AndDES: 16, "pbeWithSHAAnd2-KeyTripleDES-CBC": 24 });
  const by = Uint8Array.from(Buffer.from(digits(0, 20)));
  const length = often(() => size, () => random(40));
  return ["pbeKey", often(() => algorithm, () => "PBES2"), by, bytes(one([8, 8, 8, random(20)])), iterations(), length];
}

// The calls of a key of any size, and nothing else.
const OF_A_KEY = Object.keys(library).filter((name) => /^function \w+\(key, \.\.\.more\)/.test(library[name]));

const KINDS = [
  ...[keyBlock, wrapKeyBlock, openSalted],
  ...[mysqlColumn, pgcryptoColumn, jasyptColumn, jasyptTexts, pbeKey],
  () => ["pbkdf2", hashName(), bytes(random(70)), bytes(random(40)), iterations(), often(() => 1 + random(70), () => 0)],
  () => ["bytesToKey", often(() => one(["md5", "sha1", "sha256"]), () => "md4"), bytes(random(70)), salt(), 1 + random(70)],
  ...[translate, pvvVerify, offsetVerify],
  () => [one(OF_A_KEY), anyKey()],
  () => ["dukptDataVariant", key(16), random(2) === 0],
  () => ["pinEncode2", pin()],
  () => ["pinDecode2", often(() => Uint8Array.of(0x24, random(256), random(256), ...bytes(5).fill(255)), vector)],
  () => ["pvv", key(16), account(), index(), pin()],
  () => ["naturalPin", anyKey(), table(), vector(), often(() => 4 + random(9), () => random(16))],
  () => ["pinOffset", anyKey(), table(), vector(), pin()],
  () => ["emvCardKey", key(16), account(), text(2, 2)],
  () => ["emvCardKeyB", key(16), account(), text(2, 2)],
  () => ["emvSessionKey", key(16), vector()],
  () => ["emvApplicationKey", key(16), often(() => bytes(2), () => bytes(random(5)))],
  () => ["emvApplicationCryptogram", key(16), message()],
  () => ["emvResponse1", key(16), vector(), often(() => bytes(2), () => bytes(random(5)))],
  () => ["emvResponse2", key(16), vector(), often(() => bytes(4), () => bytes(random(7))), bytes(random(10))],
  ...[inMode, stream, keyWrap],
  ...[ecb, cbc, paddedMac, cmac, unpad, equalButParity, checkValue, combine, pinDecode],
  ...[each, checkValues, records, macs, wrongTags],
  () => ["pad", message(), method()],
  () => [one(["dukptInitialKey", "dukptTransactionKey"]), key(16), serial()],
  () => ["dukptPinKey", key(16)],
  () => [one(["dukptMacKey", "dukptDataKey"]), key(16), random(2) === 0],
  () => [one(["dukptNextSerial", "dukptIsUsable"]), serial()],
  () => ["dukptTransactionKeysFromBase", key(16), elements(10, random(one([4, 140])))],
  () => ["pinEncode0", pin(), account()],
  () => ["pinEncode1", pin(), fill(0)],
  () => ["pinEncode3", pin(), account(), fill(10)],
  () => ["cvv", key(16), account(), text(4, 4), text(3, 3)],
];

// ---- The calls

/** An argument as the wrapper takes it: a class and a cipher are written by their names. */
function given(word) {
  if (word?.class !== undefined) return library[word.class];
  if (word?.table !== undefined) return new library.DecimalTable(word.table);
  if (word?.cipher === undefined) return word;
  const [name, keyBytes] = word.cipher;
  return new library[name](keyBytes);
}

/** What a MAC gives: its tag, and whether it accepts the first bytes of it, by each call, and another one. */
function macOf(name, words, pieces, length) {
  const mac = new library[name](...words);
  for (const piece of pieces) mac.update(piece);
  const tag = mac.digest();
  const accepts = (call, bytes_) => {
    try {
      return mac[call](bytes_);
    } catch (error) {
      if (!(error instanceof library.TagMismatch)) throw error;
      return false;
    }
  };
  const cut = tag.slice(0, length);
  return [tag, accepts("verify", cut), accepts("verifyTruncatedLeft", cut), accepts("verify", tag.map((byte) => byte ^ 1))];
}

/** What the calls of a stream answer: a call that is refused changes nothing, and others go on. */
function streamOf(mode, cipher, named, calls) {
  const made = new library[mode](given(cipher), named);
  return calls.map(([call, ...words]) => {
    try {
      return made[call](...words) ?? null;
    } catch (error) {
      if (!(error instanceof library.CukvasheError)) throw error;
      return error.name;
    }
  });
}

function answerOf([name, ...words]) {
  if (name in PADDED || name in CMACS) return macOf(name, ...words);
  if (name.startsWith("Stream.")) return streamOf(name.split(".")[1], ...words);
  const [first, call] = name.split(".");
  if (call === undefined) return library[first](...words.map(given));
  const [keyBytes, ...others] = words;
  return new library[first](keyBytes)[call](...others);
}

const written = (word) => {
  if (word instanceof Uint8Array) return { bytes: hex(word) };
  if (Array.isArray(word)) return word.map(written);
  if (word?.cipher !== undefined) return { cipher: word.cipher.map(written) };
  if (word?.exportability !== undefined) return { header: Object.values(word) };
  if (word === null || typeof word !== "object" || "class" in word || "table" in word) return word;
  return { options: Object.fromEntries(Object.entries(word).map(([name, it]) => [name, written(it)])) };
};

// ---- What the types say of calls and classes, by name

const declared = readFileSync(`${folder}/cukvashe_des.d.mts`, "utf8");
const comments = new Map();
for (const [, comment, name] of declared.matchAll(/\/\*\*((?:(?!\*\/)[^])*)\*\/\n *(?:[a-z]+ )*(\w+)[(<: ]/g)) {
  if (!comments.has(name)) comments.set(name, comment.replace(/\s+(\* )?/g, " "));
}

/** Whether the comment on a name names an error too, or that on a call whose errors are the same. */
function isNamed(error, name) {
  const comment = comments.get(name) ?? "";
  const others = [...comment.matchAll(/(?:rrors as of|As) (\w+)/g)].map(([, other]) => other);
  return new RegExp(`\\b${error}\\b`).test(comment) || others.some((other) => isNamed(error, other));
}

/** The names whose comments speak of a call: of a method, or of a constructor, the class behind too. */
function spokenOf(call) {
  const [first, method] = call.split(".");
  if (first === "Stream") return [method];
  return /^[A-Z]/.test(first) ? [method, Object.getPrototypeOf(library[first]).name] : [first];
}

for (let made = 0; made < count; made += 1) {
  const call = one(KINDS)();
  const line = { call: written(call) };
  try {
    line.answer = written(answerOf(call));
  } catch (error) {
    if (!(error instanceof library.CukvasheError)) throw error;
    assert(spokenOf(call[0]).some((name) => isNamed(error.name, name)), `no comment on ${call[0]} names ${error.name}`);
    line.error = [error.name, error.message];
  }
  if (!process.stdout.write(`${JSON.stringify(line)}\n`)) await once(process.stdout, "drain");
}
