// columns.mjs FOLDER: columns of MariaDB, PostgreSQL and Jasypt, and which values of a column can't be read.
import assert from "node:assert/strict";
import { hex, is, library, throwsFault, unhex } from "./common.mjs";

await library.load();

const bytes = (text) => new TextEncoder().encode(text);
const texts = (column) => column.map((text) => (text === null ? null : Buffer.from(text).toString("latin1")));

/** That a call reads these texts, and that each has its memory for itself. */
function reads(column, wanted) {
  assert.deepEqual(texts(column), wanted);
  for (const text of column) if (text !== null) is(text, hex(text));
}

// DES_ENCRYPT of MariaDB 10.11: key string, text, value.
for (const [key, text, value] of [
  ["secret key", "4111111111111111", "ff761ce2f3fceddd8a59a88a58a8c312f3722aed0d3ffc72c8"],
  ["secret key", "12345678", "ffa3b355af8c509a975b3c4bb286b70d4c"],
  ["secret key", "", ""],
  ["k", "abcdefg", "fff0f19fad283c9714"],
  ["k", "abcdefgh", "ff0cec8a9d3373ae6bfa4d2eb4055de21b"],
  ["k", "x".repeat(20), "ff02731a6a0a4cf8035bdf098ebb4fe2938bed7dc10b8aabdc"],
  ["", "\0\xff", "ff137f1306adb26457"],
]) {
  reads(library.mysqlDecryptValues(bytes(key), [unhex(value), null, undefined, Buffer.from(value, "hex")]), [text, null, null, text]);
}
// Under a key of the server's file, of a set.
reads(library.mysqlDecryptValues(bytes("another key"), new Set([unhex("81fdbfe045c327a5f2")])), ["abc"]);

// `encrypt` and `encrypt_iv` of pgcrypto in PostgreSQL 15: cipher, key, vector, text, value.
for (const [cipher, key, iv, text, value] of [
  ["3des", "0123456789abcdef01234567", "", "hello world", "5548aa9afc0bf656bae4a844accf0674"],
  ["3DES-ECB", "0123456789abcdef01234567", "", "hello world", "5548aa9afc0bf6569d9d5e0d89ab4535"],
  ["3des-cbc", "0123456789abcdef", "", "hello world", "5edd30c020f618ff180b53afd62efef9"],
  ["3des", "short key", "", "hello world", "ce1252c01a55ff49ca7c3db7617f8e96"],
  ["3des", "k".repeat(30), "", "hello world", "14f1dc714b9a4453af5180b08e561e04"],
  ["3des", "0123456789abcdef01234567", "12345678", "hello world", "90aaa5a2eb3a74905ebbd8bc8355164f"],
  ["des", "01234567", "", "hello world", "9a02b43b244034e9c9c44c1d26b778af"],
  ["des", "123456789", "", "hello world", "28dba02eb5f6dd4778407276c7967fb2"],
  ["des", "1234", "", "hello world", "a158a37495c57fa513fb8177bff54c46"],
  ["des/pad:pkcs", "01234567", "1234", "hello world", "71696c4b5f4e3176f806b75d4508f5a9"],
  ["des-ecb/pad:none", "01234567", "", "hello wo", "9a02b43b244034e9"],
  ["des", "01234567", "", "", "08bb5db6b37c06d7"],
]) {
  const options = iv === "" ? {} : { iv: bytes(iv) };
  reads(library.pgcryptoDecryptValues(cipher, bytes(key), [unhex(value), unhex(value)], options), [text, text]);
}

// Jasypt 1.9.3, with 1,000 iterations.
const [password, setting] = [bytes("secret"), "jdbc password 1"];
const string = "XFI3GkOHuvaUreHPZLAFn+zx81+pE+jN";
for (const [algorithm, made] of [
  ["PBEWithMD5AndDES", string],
  ["PBEWithMD5AndTripleDES", "+34RBE07LtEN82W7f6UWaHttfv/kGSJv"],
  ["PBEWithSHA1AndDESede", "AM7XwsOzxflFDMNvCTJm5cjZuLZa/GEf"],
]) {
  const spaced = `\t ENC( ${made.slice(0, 5)}\r\n${made.slice(5)}\f) \n`;
  const column = [made, `ENC(${made})`, null, bytes(made), spaced];
  reads(library.jasyptDecryptValues(password, column, { algorithm }), [setting, setting, null, setting, setting]);
  const salt = Buffer.from(made, "base64").subarray(0, 8);
  assert.equal(library.jasyptEncrypt(password, bytes(setting), { algorithm, salt }), made);
  for (let length = 0; length < 40; length += 1) {
    const text = "a".repeat(length);
    const one = library.jasyptEncrypt(password, bytes(text), { algorithm, iterations: 3 });
    assert.notEqual(one, library.jasyptEncrypt(password, bytes(text), { algorithm, iterations: 3 }));
    reads(library.jasyptDecryptValues(password, [one], { algorithm, iterations: 3 }), [text]);
  }
  const both = library.jasyptEncryptValues(password, [bytes(setting), null, bytes(setting)], { algorithm, salts: Buffer.concat([salt, salt]) });
  assert.deepEqual(both, [made, null, made]);
  // More salts than the source of random bytes gives at a time.
  const lines = Array.from({ length: 9000 }, (_, length) => "a".repeat(length % 40));
  const written = library.jasyptEncryptValues(password, [null, ...lines.map(bytes)], { algorithm, iterations: 1 });
  reads(library.jasyptDecryptValues(password, written, { algorithm, iterations: 1 }), [null, ...lines]);
  assert.equal(new Set(written.map((line) => line?.slice(0, 10))).size, 9001);
}
// A value of the JDK whose salt has two equal halves.
const made = library.pbeKey("PBEWithMD5AndTripleDES", password, unhex("0102030401020304"), 20, 32);
const opened = new library.TdesEde3(made.slice(0, 24)).decryptCbc(unhex("0a6ddec322c99c34"), { iv: made.slice(24) });
is(library.unpad(opened, "pkcs7"), hex(bytes("abc")));

/** What a call throws of a column, of which some values can't be read. */
function unread(call, faults, wanted) {
  let error = null;
  assert.throws(() => call({}), (thrown) => (error = thrown) instanceof library.UnreadableValues);
  assert.deepEqual([...error.faults].map(([place, fault]) => [place, fault.name]), faults);
  for (const fault of error.faults.values()) assert(fault instanceof library.CukvasheError);
  assert.deepEqual(texts(error.texts), wanted);
  assert.deepEqual(call({ errors: "null" }), error.texts);
  assert.deepEqual(error.name, "UnreadableValues");
  const [[place]] = faults;
  const begin = `${faults.length} of ${wanted.length} values can't be read, the first at place ${place}: `;
  assert.equal(error.message, begin + error.faults.get(place).message);
}

const good = unhex("ff0cec8a9d3373ae6bfa4d2eb4055de21b");
const values = [null, unhex("ff00"), good, unhex("ff0000000000000000"), unhex(""), good.subarray(1)];
unread(
  (options) => library.mysqlDecryptValues(bytes("k"), values, options),
  [[1, "NotEncrypted"], [3, "PaddingMismatch"], [5, "NotEncrypted"]],
  [null, null, "abcdefgh", null, "", null],
);
const value = unhex("5548aa9afc0bf656bae4a844accf0674");
const key = bytes("0123456789abcdef01234567");
unread(
  (options) => library.pgcryptoDecryptValues("3des", key, [value.subarray(0, 8), value, unhex(""), value.subarray(0, 9)], options),
  [[0, "PaddingMismatch"], [2, "BlockLength"], [3, "BlockLength"]],
  [null, "hello world", null, null],
);
const strings = ["ENC", string.slice(0, 8), `${string.slice(0, -1)}é`, string, string.slice(0, 12), "XFI3GkOHuR==", "====", ""];
unread(
  (options) => library.jasyptDecryptValues(password, strings, options),
  [[0, "Base64"], [1, "SaltLength"], [2, "Base64"], [4, "BlockLength"], [5, "Base64"], [6, "Base64"], [7, "SaltLength"]],
  [null, null, null, setting, null, null, null, null],
);
for (const [length, text] of [[8, /: the value ends within the salt$/], [12, /: what is encrypted is not whole blocks of 8 bytes$/]]) {
  assert.throws(() => library.jasyptDecryptValues(password, [string.slice(0, length)]), text);
}

// Columns of one memory, empty ones, and arguments that are refused.
assert.deepEqual(library.mysqlDecryptValues(bytes("k"), []), []);
assert.deepEqual(library.mysqlDecryptValues(bytes("k"), [null, null]), [null, null]);
for (const [run, name] of [
  [() => library.pgcryptoDecryptValues("aes", key, []), "AlgorithmName"],
  [() => library.jasyptDecryptValues(password, [], { algorithm: "PBEWithSHA1AndDES" }), "AlgorithmName"],
  [() => library.jasyptDecryptValues(password, [], { iterations: 0 }), "IterationCount"],
  [() => library.jasyptDecryptValues(password, [], { iterations: 2 ** 32 }), "IterationCount"],
  [() => library.jasyptEncryptValues(password, [], { algorithm: "PBEWithSHA1AndDES" }), "AlgorithmName"],
  [() => library.jasyptEncryptValues(password, [], { iterations: 0 }), "IterationCount"],
  [() => library.jasyptEncryptValues(password, [bytes(""), null], { salts: new Uint8Array(16) }), "SaltLength"],
  [() => library.jasyptEncrypt(password, bytes(""), { salt: unhex("00") }), "SaltLength"],
  [() => library.pbeKey("PBEWithMD5AndTripleDES", password, unhex("00"), 1, 32), "SaltLength"],
  [() => library.pbeKey("PBEWithMD5AndDES", password, unhex("0102030405060708"), 1, 24), "KeyLength"],
  [() => library.pbeKey("PBEWithMD5AndDES", password, unhex("0102030405060708"), 1, 0), "KeyLength"],
]) {
  throwsFault(run, name);
}
for (const run of [
  () => library.mysqlDecryptValues(bytes("k"), good),
  () => library.mysqlDecryptValues(bytes("k"), hex(good)),
  () => library.mysqlDecryptValues(bytes("k"), [hex(good)]),
  () => library.mysqlDecryptValues(bytes("k"), [[1]]),
  () => library.mysqlDecryptValues("k", [good]),
  () => library.mysqlDecryptValues(bytes("k"), [good], { errors: "ignore" }),
  () => library.mysqlDecryptValues(bytes("k"), [good], { error: "null" }),
  () => library.mysqlDecryptValues(bytes("k"), [good], {}, 1),
  () => library.pgcryptoDecryptValues(bytes("3des"), key, []),
  () => library.pgcryptoDecryptValues("3des", key, [value], { iv: "12345678" }),
  () => library.jasyptDecryptValues(password, string),
  () => library.jasyptDecryptValues(password, [1]),
  () => library.jasyptEncryptValues(password, ["text"]),
  () => library.pbeKey("PBEWithMD5AndDES", password, "salt", 1, 16),
]) {
  assert.throws(run, TypeError);
}
console.log("JavaScript: columns of MariaDB, PostgreSQL and Jasypt");
