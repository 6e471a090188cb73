// What calls take: values that are right, and a table of every call with such arguments, and with what of a wrong type it takes too.
import { library, unhex } from "./common.mjs";
import { knownCalls } from "./known.mjs";

export const KEY = unhex("0123456789abcdef23456789abcdef01456789abcdef0123");
export const PAIR = unhex("0123456789abcdeffedcba9876543210");
export const IV = unhex("1234567890abcdef");
export const SERIAL = unhex("ffff9876543210e00001");
export const ACCOUNT = "4012345678909";
export const FILL = Uint8Array.of(10, 11, 12, 13, 14, 15, 10, 11, 12, 13);
export const MESSAGE = unhex("6bc1bee22e409f96e93d7e117393172aae2d8a571e03ac9c");
export const OTHER = unhex("89e88cf7931444f334bd7547fc3f380c");
export const SENT = unhex("c03d21cdbcb0c58b");
export const ONE = unhex("646855a2370347d8");
export const KEYS = { incomingKey: PAIR, outgoingKey: OTHER };
export const PROTECTION = unhex("dd7515f2bfc17f85ce48f3ca25cb21f6");
export const BLOCK = "B0080P0TE00E000094B420079CC80BA3461F86FE26EFC4A3B8E4FA4C5F5341176EED7B727B8A248E";
export const SALTED = unhex("53616c7465645f5fe927a7d874ff28cd93ad37243eb1e04e969de009cb5daeb794437e9ef739ae56dc0b84dd9380ace766ec9187d68c226b");
export const SECRET = Buffer.from("secret");

const isText = (it) => typeof it === "string";
export const isNumbers = (it) => Array.isArray(it) || it instanceof Uint16Array || it instanceof Uint8ClampedArray;
const isOptions = (it) => it === undefined || (Object.prototype.toString.call(it) === "[object Object]" && Object.keys(it).length === 0);
const isEmpty = (it) => typeof it === "object" && typeof it?.[Symbol.iterator] === "function" && [...it].length === 0;
const isOptional = (it) => Object.prototype.toString.call(it) === "[object Object]";
// Calls that no known answer is of, or with fewer arguments than they take.
const others = () => [
  ...[["Des", [KEY.subarray(0, 8)]], ["TdesEde2", [PAIR]], ["TdesEde3", [KEY]], ["CmacTdesEde2", [PAIR, IV]], ["RetailMacDes", [PAIR, 2, IV]]],
  ...[["DukptTerminal", [PAIR, SERIAL]], ["DecimalTable", ["0123456789012345"]]],
  ...[["Ctr", { counter: IV }], ["Ofb", { iv: IV }], ["Cfb", { iv: IV, segmentSize: 1 }]]
    .map(([name, named]) => [name, [new library.TdesEde3(KEY), named]]),
  ...["encryptEach", "decryptEach"].map((name) => [name, [library.TdesEde3, KEY, IV]]),
  ["checkValues", [library.TdesEde3, KEY]],
  ...["encryptCbcRecords", "decryptCbcRecords"].map((name) => [name, [new library.TdesEde3(KEY), IV, { vectors: IV, counts: [1] }]]),
  ...["macs", "macsEach"].map((name) => [name, [library.RetailMacDes, PAIR, 2, [24], MESSAGE]]),
  ["wrongTags", [IV, IV]],
  ["mysqlDecryptValues", [SECRET, [MESSAGE, null], { errors: "null" }]],
  ["pgcryptoDecryptValues", ["3des", KEY, [MESSAGE], { iv: IV, errors: "null" }]],
  ["jasyptDecryptValues", [SECRET, ["XFI3GkOHuvaUreHPZLAFn+zx81+pE+jN"], { errors: "null" }]],
  ["jasyptEncryptValues", [SECRET, [MESSAGE, null], { iterations: 2, salts: IV }]],
  ["jasyptEncrypt", [SECRET, MESSAGE, { salt: IV }]],
  ["pbeKey", ["PBEWithMD5AndDES", SECRET, IV, 2, 16]],
];

/** Which wrong types an argument may have: another text, a number, or an object of no options; and where it may be left out, none. */
function allowed(name, word, at) {
  if (isText(word)) return isText;
  if (typeof word === "number") return (it) => it === 5;
  if (typeof word === "boolean") return (it) => it === undefined || it === true;
  if (Array.isArray(word)) return isNumbers;
  if (name.endsWith("Values") && Array.isArray(word)) return isEmpty;
  if (/^(mysql|pgcrypto|jasypt)/.test(name) && isOptional(word)) return isOptions;
  if (["wrapKeyBlock", "openSalted"].includes(name) && at === 3) return isOptions;
  if (name === "cmsWrapKey" && at === 2) return isOptions;
  const isMessage = /^[A-Z].*mac/i.test(name) && at > 0;
  return (it) => it === undefined && (isMessage || (name === "emvResponse2" && at === 3));
}

/** Of each call its name, arguments that it takes, as many as there are, and for each of them which wrong types it takes too. */
export function allCalls() {
  const calls = new Map(others());
  for (const { name, words, error } of knownCalls()) {
    // Those of a cipher are calls of an object.
    const isFunction = library[name] !== undefined;
    if (isFunction && error === undefined && words.length > (calls.get(name)?.length ?? 0)) calls.set(name, words);
  }
  return [...calls].map(([name, words]) => [name, words, words.map((word, at) => allowed(name, word, at))]);
}
