// DES and triple DES (FIPS 46-3), for browsers and Node, over a WebAssembly module whose exports are proved; this wrapper
// is tested:
//
//     import { load, TdesEde3 } from "./cukvashe_des.mjs";
//     await load();
//     const plaintext = new TdesEde3(key).decryptCbc(ciphertext, { iv });
//
// Bytes come in and go out as Uint8Array, texts as strings of digits; names are those of the package for Python, and so
// are the errors, but for Error at their end, each a CukvasheError of its own name. A wrong type is a TypeError.
// cukvashe_des.d.mts says what each call does, and has the types.
//
// Each call reads first what may run code of the caller's: classes, options, and numbers that an iterator gives. Then it
// takes views of bytes, and then, in `inside`, where no such code runs, what an object keeps. So it answers as if that code
// had run before it. It lays all down in the module's memory, calls, copies the answer out, and wipes both and the module's
// stack. The module asks for no memory and keeps no state: ciphers and MACs keep their contexts here, as bytes.

/** The version of this file, which is that of the module. */
export const version = "@VERSION@";

export const BLOCK_SIZE = 8;
export const TAG_SIZE = 8;

// The SHA-256 of the modules that this file was built with: the one of a 64-bit memory, and the same of a 32-bit memory.
const MODULE_SUM = "@MODULE_SUM@";
const NARROW_SUM = "@NARROW_SUM@";

// The bytes of the module's stack, which lies at its address 0. `build` links it so.
const STACK_SIZE = 131072;

// ---- Errors ---------------------------------------------------------------------------------------------------------

export class CukvasheError extends Error {}

/** An error of a name, which stays when a tool shortens the names of classes. */
function fault(name) {
  const Fault = class extends CukvasheError {};
  Object.defineProperty(Fault, "name", { value: name });
  Object.defineProperty(Fault.prototype, "name", { value: name, writable: true, configurable: true });
  return Fault;
}

export const NotLoaded = fault("NotLoaded");
export const NotSupported = fault("NotSupported");
export const ModuleMismatch = fault("ModuleMismatch");
export const VectorLength = fault("VectorLength");
export const SegmentSize = fault("SegmentSize");
export const Position = fault("Position");
export const Direction = fault("Direction");
export const SerialLength = fault("SerialLength");
export const WeakKey = fault("WeakKey");
export const Closed = fault("Closed");
export const FillLength = fault("FillLength");
export const NoSerial = fault("NoSerial");
export const StateLength = fault("StateLength");
export const UnreadableValues = fault("UnreadableValues");

// The statuses of cukvashe_des.h, the sentence of each at the place of its number, and their errors: made of it by bindings/describe.
const OK = 0;
const KEY_LENGTH = 1;
const BLOCKS = 2;
const WEAK_KEY = 3;
const PADDING_METHOD = 4;
const TAG = 5;
const NO_SERIAL = 6;
const FORMAT = 7;
const PIN_LENGTH = 8;
const PIN_DIGIT = 9;
const ACCOUNT_LENGTH = 10;
const ACCOUNT_DIGIT = 11;
const FILL = 12;
const EXPIRY_LENGTH = 13;
const EXPIRY_DIGIT = 14;
const SERVICE_LENGTH = 15;
const SERVICE_DIGIT = 16;
const PADDING = 17;
const CAPACITY = 18;
const COUNTS = 19;
const KEY_INDEX = 20;
const TABLE_LENGTH = 21;
const TABLE_DIGIT = 22;
const TABLE_VARIETY = 23;
const WRONG_PIN = 24;
const FORMATS = 25;
const PIN_BLOCK = 26;
const SEQUENCE_LENGTH = 27;
const SEQUENCE_DIGIT = 28;
const DATA_LENGTH = 29;
const PROTECTION_KEY_LENGTH = 30;
const KEY_BLOCK_LENGTH = 31;
const VERSION = 32;
const HEADER = 33;
const OPTIONAL_BLOCK = 34;
const KEY_DATA_LENGTH = 35;
const KEY_BLOCK_DIGIT = 36;
const KEY_BLOCK_MAC = 37;
const PADDING_LENGTH = 38;
const NO_OPTIONAL_BLOCK = 39;
const HASH = 40;
const ITERATIONS = 41;
const NOT_SALTED = 42;
const SALT_LENGTH = 43;
const CONTEXT = 44;
const MODE = 45;
const STREAM = 46;
const WRAPPED_LENGTH = 47;
const WRAPPED_KEY = 48;
const NOT_ENCRYPTED = 49;
const VALUES = 50;
const ALGORITHM = 51;
const BASE64 = 52;
const KEY_NUMBER = 53;
const OVERLAP = 54;
const SENTENCES = [
  "success",
  "the key does not have a length that the call takes",
  "the length is not a multiple of 8 bytes",
  "the key is weak, or two of its parts are one key",
  "the padding method is not one that the call takes",
  "the tag is not that of the message",
  "there is no next key serial number",
  "the first digit of the PIN block is not that of the format",
  "the PIN does not have 4 to 12 digits",
  "a character of the PIN is not a digit",
  "the account number does not have 8 to 19 digits, for a PVV or a CVV 12 to 19",
  "a character of the account number is not a digit",
  "a fill digit is not one that the format allows",
  "the expiry date does not have four digits",
  "a character of the expiry date is not a digit",
  "the service code does not have three digits",
  "a character of the service code is not a digit",
  "the data do not end with the padding",
  "the buffer is too small for all that the call would write",
  "the numbers of elements do not agree: a count, or a sum of counts, and a length",
  "the index of the key pair is not 1 to 6",
  "the decimalization table does not have sixteen digits",
  "a character of the decimalization table is not a digit",
  "the decimalization table has fewer than eight different digits",
  "the PIN is wrong",
  "there is no translation of PIN blocks from this format, only from 0, 1 and 3",
  "decrypted, the PIN block is not one of its format and account number",
  "the sequence number does not have two digits",
  "a character of the sequence number is not a digit",
  "the issuer's data have more than 8 bytes",
  "the protection key does not have 16 or 24 bytes",
  "the key block is not as long as its header says, longer than 9999 characters, or too long for its buffer",
  "the version of the key block is not one that the call takes",
  "the header does not end with two digits, 0, 1 or 2, and 0, or a field to be written is not letters and digits",
  "the optional blocks can't be read or written: a wrong length, name, content or PB, an end off a multiple of eight, or more than 99",
  "the encrypted key data do not have a length that they can have",
  "a character of the encrypted key data or the MAC is not 0 to 9 or A to F",
  "the MAC is not that of the key block",
  "the padding of the key does not have 6, 14 or 22 bytes, or has more than 30 with the key",
  "the key block has no optional block at this place",
  "the hash function is not one that the call takes",
  "the number of iterations is not 1 to 2^32 - 1",
  "the bytes do not begin with Salted__",
  "the bytes end within the salt, or it does not have 0 or 8 bytes",
  "the context is not one that the init of this type made",
  "the mode is not one that the call takes",
  "the stream is not one that was begun",
  "the wrapped key does not have 24 bytes or more, a multiple of 8 (CMS), or 12 or more, a multiple of 4 (TKW)",
  "the bytes are no key wrapped under the protection key, or were changed",
  "the value is none that MySQL encrypted",
  "some values can't be read: their statuses say why",
  "the algorithm is not one that the call takes",
  "the value is not Base64",
  "the number is not 0 to 9, or the file has no key of that number",
  "what the call would write overlaps what it reads",
];
export const KeyLength = fault("KeyLength");
export const BlockLength = fault("BlockLength");
export const PaddingMethod = fault("PaddingMethod");
export const TagMismatch = fault("TagMismatch");
export const Format = fault("Format");
export const PinLength = fault("PinLength");
export const PinDigit = fault("PinDigit");
export const AccountLength = fault("AccountLength");
export const AccountDigit = fault("AccountDigit");
export const Fill = fault("Fill");
export const ExpiryLength = fault("ExpiryLength");
export const ExpiryDigit = fault("ExpiryDigit");
export const ServiceLength = fault("ServiceLength");
export const ServiceDigit = fault("ServiceDigit");
export const PaddingMismatch = fault("PaddingMismatch");
export const CountMismatch = fault("CountMismatch");
export const KeyIndex = fault("KeyIndex");
export const TableLength = fault("TableLength");
export const TableDigit = fault("TableDigit");
export const TableVariety = fault("TableVariety");
export const WrongPin = fault("WrongPin");
export const Formats = fault("Formats");
export const PinBlock = fault("PinBlock");
export const SequenceLength = fault("SequenceLength");
export const SequenceDigit = fault("SequenceDigit");
export const DataLength = fault("DataLength");
export const ProtectionKeyLength = fault("ProtectionKeyLength");
export const KeyBlockLength = fault("KeyBlockLength");
export const KeyBlockVersion = fault("KeyBlockVersion");
export const KeyBlockField = fault("KeyBlockField");
export const OptionalBlock = fault("OptionalBlock");
export const KeyDataLength = fault("KeyDataLength");
export const KeyBlockDigit = fault("KeyBlockDigit");
export const KeyBlockMac = fault("KeyBlockMac");
export const PaddingLength = fault("PaddingLength");
export const HashName = fault("HashName");
export const IterationCount = fault("IterationCount");
export const NotSalted = fault("NotSalted");
export const SaltLength = fault("SaltLength");
export const WrappedLength = fault("WrappedLength");
export const WrappedKey = fault("WrappedKey");
export const NotEncrypted = fault("NotEncrypted");
export const AlgorithmName = fault("AlgorithmName");
export const Base64 = fault("Base64");
export const KeyNumber = fault("KeyNumber");
const FAULTS = new Map([
  [KEY_LENGTH, KeyLength],
  [BLOCKS, BlockLength],
  [PADDING_METHOD, PaddingMethod],
  [TAG, TagMismatch],
  [FORMAT, Format],
  [PIN_LENGTH, PinLength],
  [PIN_DIGIT, PinDigit],
  [ACCOUNT_LENGTH, AccountLength],
  [ACCOUNT_DIGIT, AccountDigit],
  [FILL, Fill],
  [EXPIRY_LENGTH, ExpiryLength],
  [EXPIRY_DIGIT, ExpiryDigit],
  [SERVICE_LENGTH, ServiceLength],
  [SERVICE_DIGIT, ServiceDigit],
  [PADDING, PaddingMismatch],
  [COUNTS, CountMismatch],
  [KEY_INDEX, KeyIndex],
  [TABLE_LENGTH, TableLength],
  [TABLE_DIGIT, TableDigit],
  [TABLE_VARIETY, TableVariety],
  [WRONG_PIN, WrongPin],
  [FORMATS, Formats],
  [PIN_BLOCK, PinBlock],
  [SEQUENCE_LENGTH, SequenceLength],
  [SEQUENCE_DIGIT, SequenceDigit],
  [DATA_LENGTH, DataLength],
  [PROTECTION_KEY_LENGTH, ProtectionKeyLength],
  [KEY_BLOCK_LENGTH, KeyBlockLength],
  [VERSION, KeyBlockVersion],
  [HEADER, KeyBlockField],
  [OPTIONAL_BLOCK, OptionalBlock],
  [KEY_DATA_LENGTH, KeyDataLength],
  [KEY_BLOCK_DIGIT, KeyBlockDigit],
  [KEY_BLOCK_MAC, KeyBlockMac],
  [PADDING_LENGTH, PaddingLength],
  [HASH, HashName],
  [ITERATIONS, IterationCount],
  [NOT_SALTED, NotSalted],
  [SALT_LENGTH, SaltLength],
  [WRAPPED_LENGTH, WrappedLength],
  [WRAPPED_KEY, WrappedKey],
  [NOT_ENCRYPTED, NotEncrypted],
  [ALGORITHM, AlgorithmName],
  [BASE64, Base64],
  [KEY_NUMBER, KeyNumber],
]);
// This ends what bindings/describe made.

// What stands after a sentence that leaves it to the call, if the call does not say another.
const TAKEN = new Map([
  [KEY_LENGTH, ": 8, 16 or 24 bytes"],
  [PADDING_METHOD, ": 1 or 2"],
  [VERSION, ": A, B or C to read, B or C to make"],
  [HASH, ': for PBKDF2 "sha1" or "sha256"'],
]);

/** The error of a status, with its sentence. */
function faultOf(status, taken = TAKEN) {
  const Fault = FAULTS.get(status);
  return new Fault(SENTENCES[status] + (taken.get(status) ?? ""));
}

/** Throws the error of a status. */
function check(status, taken = TAKEN) {
  if (status !== OK) throw faultOf(status, taken);
}

// ---- Arguments: each is tested, and taken once, before anything is laid down ----------------------------------------

// What every typed array has: a class that a caller derives may say otherwise.
const typedArray = Object.getPrototypeOf(Uint8Array.prototype);
const getterOf = (name) => Object.getOwnPropertyDescriptor(typedArray, name).get;
const [typedArrayName, bufferOf, offsetOf, lengthOf] = [Symbol.toStringTag, "buffer", "byteOffset", "length"].map(getterOf);
const { at: elementAt } = typedArray;

/** The bytes of a Uint8Array, as Buffer is one, from whatever window it came. */
function bytesOf(data, what) {
  if (typeof data === "string") {
    throw new TypeError(`${what}: a Uint8Array is needed, as Buffer.from(digits, "hex") or Uint8Array.fromHex(digits) makes it`);
  }
  if (typedArrayName.call(data) !== "Uint8Array") throw new TypeError(`${what}: a Uint8Array is needed`);
  try {
    // An array that lies outside its buffer has the length 0, and would pass for an empty one.
    elementAt.call(data, 0);
  } catch (error) {
    if (!(error instanceof TypeError)) throw error;
    throw new TypeError(`${what}: the buffer of the array was detached, or shrunk to less than the array`);
  }
  return new Uint8Array(bufferOf.call(data), offsetOf.call(data), lengthOf.call(data));
}

/** The bytes of a key of one of these sizes. */
function keyOf(key, ...sizes) {
  const bytes = bytesOf(key, "a key");
  if (sizes.includes(bytes.length)) return bytes;
  throw new KeyLength(`a key has ${sizes.join(" or ")} bytes, not ${bytes.length}`);
}

function vectorOf(iv, what = "an initialization vector") {
  const bytes = bytesOf(iv, what);
  if (bytes.length === BLOCK_SIZE) return bytes;
  throw new VectorLength(`${what} has ${BLOCK_SIZE} bytes, not ${bytes.length}`);
}

const counterOf = (counter) => vectorOf(counter, "a counter block");

function serialOf(serial) {
  const bytes = bytesOf(serial, "a key serial number");
  if (bytes.length === SERIAL_SIZE) return bytes;
  throw new SerialLength(`a key serial number has ${SERIAL_SIZE} bytes, not ${bytes.length}`);
}

function blockOf(block) {
  const bytes = bytesOf(block, "a PIN block");
  if (bytes.length === BLOCK_SIZE) return bytes;
  throw new BlockLength(`a PIN block has ${BLOCK_SIZE} bytes, not ${bytes.length}`);
}

/** Ten digits of four bits, one in a byte. */
function fillOf(digits) {
  const bytes = bytesOf(digits, "fill digits");
  if (bytes.length === 10) return bytes;
  throw new FillLength(`there are ten fill digits, not ${bytes.length}`);
}

/** The bytes of data that have one length, and no other. */
function dataOf(data, size, what, has, Fault) {
  const bytes = bytesOf(data, what);
  if (bytes.length === size) return bytes;
  throw new Fault(`${what} ${has} ${size} bytes, not ${bytes.length}`);
}

/** A number that a call takes, or one that it refuses, since a fraction or a larger one would become another. */
function numberOf(number, least, most, what) {
  if (typeof number !== "number") throw new TypeError(`${what}: a number is needed`);
  return Number.isInteger(number) && number >= least && number <= most ? number : 2 ** 31 - 1;
}

/** The bytes of a text of ASCII digits. A character beyond ASCII becomes one that is not a digit either. */
function textOf(text, what) {
  if (typedArrayName.call(text) === "Uint8Array") return bytesOf(text, what);
  if (typeof text !== "string") throw new TypeError(`${what}: a string of digits is needed`);
  return Uint8Array.from(text, (character) => (character.codePointAt(0) < 128 ? character.codePointAt(0) : 63));
}

const isOfNames = (object) => Object.prototype.toString.call(object) === "[object Object]";

/** Whether an object has no names but these: one that is spelled otherwise would pass for one that was left out. */
function hasNoOther(object, names) {
  const given = Reflect.ownKeys(object);
  for (const name in object) given.push(name);
  return given.every((name) => names.includes(name));
}

/** An object of these names and of no others. */
function namedOf(what, object, ...names) {
  if (!isOfNames(object)) throw new TypeError(`${what}: an object of names is needed`);
  if (hasNoOther(object, names)) return object;
  const listed = names.map((name) => `"${name}"`).join(", ").replace(/, ([^,]*)$/, " and $1");
  throw new TypeError(`${what}: the names are ${listed} alone`);
}

/** The options of a call. */
const optionsOf = (options, ...names) => namedOf("options", options, ...names);

/**
 * What a call takes by these names, all of them, after its data, or after its cipher. By its place a vector would pass
 * for data of its length, and the data for a vector.
 */
function afterData(form, [options, ...more], names, first = "the data come") {
  if (more.length === 0 && isOfNames(options) && hasNoOther(options, names)) {
    const values = names.map((name) => options[name]);
    if (!values.includes(undefined)) return values;
  }
  throw new TypeError(`write ${form}: ${first} first, the rest by name, and nothing else`);
}

/** Refuses arguments that a call does not have. Passed over, they would be taken for a part of its answer. */
function refuseMore(more, text = "the call takes fewer arguments") {
  if (more.length > 0) throw new TypeError(text);
}

/** The text of bytes, each of them a character. */
const charactersOf = (bytes) => Array.from(bytes, (byte) => String.fromCharCode(byte)).join("");

/** The word for the message. Any other type would stand for the response, whatever it says. */
function responseOf(isResponse) {
  if (typeof isResponse !== "boolean") throw new TypeError("isResponse: true or false is needed");
  return isResponse;
}

/** The number of a padding method of a MAC. The library refuses what is neither 1 nor 2. */
function paddingOf(padding) {
  if (typeof padding !== "number") throw new TypeError("the padding method: the number 1 or 2 is needed");
  return padding === 1 || padding === 2 ? padding : 0;
}

/** The bytes of a list of elements of a size. */
function listOf(list, size, Fault, elements) {
  const bytes = bytesOf(list, elements);
  if (bytes.length % size !== 0) throw new Fault(`${bytes.length} bytes are not whole ${elements} of ${size}`);
  return bytes;
}

/** Numbers, of an array or anything else that gives them one by one. */
function numbersOf(numbers, what) {
  if (typeof numbers !== "object" || typeof numbers?.[Symbol.iterator] !== "function") {
    throw new TypeError(`${what}: an array of numbers is needed`);
  }
  const taken = [...numbers];
  if (!taken.every((number) => Number.isInteger(number))) throw new TypeError(`${what}: whole numbers are needed`);
  if (taken.some((number) => number < 0 || number > Number.MAX_SAFE_INTEGER)) {
    throw new CountMismatch("a count or a length is no number of 64 bits");
  }
  return taken;
}

// ---- The module's memory --------------------------------------------------------------------------------------------

const PAGE = 65536;

/**
 * Lays down what a call reads and allocates what it writes, after the module's own data. Addresses and lengths are
 * BigInt.
 */
class Workspace {
  #memory;
  #calls;
  #start;
  #end;
  #isInCall = false;
  #isSpoiled = false;

  constructor({ memory, __heap_base: base, ...calls }) {
    this.#memory = memory;
    this.#calls = calls;
    this.#start = this.#end = Math.ceil(Number(base.value) / 16) * 16;
  }

  /** Whether a call did not come to its end, or could not be wiped. */
  get isSpoiled() {
    return this.#isSpoiled;
  }

  /** What a function makes by calls, which is wiped after it. An exception out of the module leaves the instance spoiled. */
  use(run) {
    this.#isSpoiled = true;
    try {
      return run(this);
    } finally {
      this.wipe();
      this.#isSpoiled = this.#isInCall;
    }
  }

  /** What a call answers: a status, a word for true or false, or nothing. */
  ask(name, ...words) {
    this.#isInCall = true;
    const answer = this.#calls[`cukvashe_${name}`](...words);
    this.#isInCall = false;
    return answer;
  }

  /** Makes a call, and throws the error of its status. */
  call(name, ...words) {
    check(this.ask(name, ...words) ?? OK);
  }

  /** Allocates a number of bytes, at an address that is aligned for anything. */
  allocate(size) {
    const at = this.#end;
    const end = Math.ceil((at + size) / 16) * 16;
    const lacking = end - this.#memory.buffer.byteLength;
    if (lacking > 0) this.#grow(Math.ceil(lacking / PAGE));
    this.#end = end;
    return BigInt(at);
  }

  /** Where the bytes of an array of a fixed size are laid down. */
  put(bytes) {
    const at = this.allocate(bytes.length);
    this.lay(at, bytes);
    return at;
  }

  /** Lays bytes down in memory that was allocated. */
  lay(at, bytes) {
    this.#bytes(Number(at), bytes.length).set(bytes);
  }

  /** What an object of a class keeps. A call sees it here alone, after the last code of the caller's has run. */
  state(object, Base, what = "the object") {
    const state = states.get(object);
    if (state?.Base !== Base) {
      const example = Base === Cipher ? "a cipher, such as new TdesEde2(key)," : "one that its class has made";
      throw new TypeError(`${what}: ${example} is needed`);
    }
    if (state.context === null) throw new Closed("the cipher, MAC or terminal was closed");
    if (state.maker !== this && state.maker.isSpoiled) {
      throw new Closed("the cipher, MAC or terminal was closed by a call that did not end: make it anew");
    }
    return state;
  }

  /** Where the elements of a list are laid down, and how many there are. */
  list(bytes, size = 1) {
    return [this.put(bytes), BigInt(bytes.length / size)];
  }

  /** Where words of 64 bits are laid down. */
  words(numbers) {
    const at = this.allocate(8 * numbers.length);
    const view = new DataView(this.#memory.buffer, Number(at), 8 * numbers.length);
    numbers.forEach((number, place) => view.setBigUint64(8 * place, BigInt(number), true));
    return at;
  }

  /** A copy of what stands there. */
  taken(at, size) {
    return this.#bytes(Number(at), size).slice();
  }

  /** Copies what stands there over bytes. */
  take(at, bytes) {
    bytes.set(this.#bytes(Number(at), bytes.length));
  }

  /** A word of 64 bits that a call wrote. */
  word(at) {
    return Number(new DataView(this.#memory.buffer, Number(at), 8).getBigUint64(0, true));
  }

  wipe() {
    this.#bytes(this.#start, this.#end - this.#start).fill(0);
    this.#bytes(0, STACK_SIZE).fill(0);
    this.#end = this.#start;
  }

  #bytes(at, size) {
    return new Uint8Array(this.#memory.buffer, at, size);
  }

  // Of a 32-bit memory, and in engines older than the standard of 64-bit ones, the number of pages is a Number.
  #grow(pages) {
    try {
      this.#memory.grow(BigInt(pages));
    } catch (error) {
      if (!(error instanceof TypeError)) throw error;
      this.#memory.grow(pages);
    }
  }
}

// The instance of the module that is in use, and the module, of which another one can be made.
let workspace = null;
let compiled = null;

/**
 * Runs calls in the module's memory, and wipes it. An exception that is none of the library's, as when the engine's own
 * stack ends or the module traps, leaves its instance within a call, with a part of its stack in use for good. So the next
 * call has a new one.
 */
function inside(run) {
  if (workspace === null) throw new NotLoaded("the library is not loaded: await load() first");
  if (workspace.isSpoiled) renew();
  return workspace.use(run);
}

/** Wipes what a call left behind, and makes a new instance. */
function renew() {
  workspace.wipe();
  workspace = new Workspace(new WebAssembly.Instance(compiled, {}).exports);
}

// How an argument of a call is laid down: bytes as they stand, a list with its length, a number, or one of 64 bits. In the place of
// those that a call writes stands how many bytes it writes.
const BYTES = (memory, bytes) => [memory.put(bytes)];
const LIST = (memory, bytes) => memory.list(bytes);
const NUMBER = (memory, number) => [Number(number)];
const SIZE = (memory, number) => [BigInt(number)];

// What calls of the module take, by the names of their arguments: made of crates/des_c by bindings/describe.
const CALLS = {
  weak_key_test: [["key", LIST]],
  internal_equal_but_parity: [["first", LIST], ["second", LIST]],
  unpad: [["bytes", LIST], ["method", NUMBER], ["unpaddedLength", 8]],
  cvv: [["key", BYTES], ["account", LIST], ["expiry", LIST], ["service", LIST], ["value", 4]],
  key_check_value: [["key", LIST], ["value", 3]],
  short_key_check_value: [["key", LIST], ["value", 2]],
  internal_check_value: [["keySize", SIZE], ["key", LIST], ["value", 3]],
  dukpt_initial_key: [["base", BYTES], ["serial", BYTES], ["key", 16]],
  dukpt_transaction_key: [["initial", BYTES], ["serial", BYTES], ["key", 16]],
  dukpt_pin_key: [["transaction", BYTES], ["key", 16]],
  dukpt_mac_key: [["transaction", BYTES], ["isResponse", NUMBER], ["key", 16]],
  dukpt_data_variant: [["transaction", BYTES], ["isResponse", NUMBER], ["key", 16]],
  dukpt_data_key: [["transaction", BYTES], ["isResponse", NUMBER], ["key", 16]],
  dukpt_is_usable: [["serial", BYTES]],
  dukpt_next_serial: [["serial", BYTES], ["next", 10]],
  emv_card_key: [["issuer", BYTES], ["account", LIST], ["sequence", LIST], ["key", 16]],
  emv_card_key_b: [["issuer", BYTES], ["account", LIST], ["sequence", LIST], ["key", 16]],
  emv_session_key: [["card", BYTES], ["block", BYTES], ["key", 16]],
  emv_application_key: [["card", BYTES], ["counter", BYTES], ["key", 16]],
  emv_application_cryptogram: [["session", BYTES], ["bytes", LIST], ["cryptogram", 8]],
  emv_response_1: [["session", BYTES], ["cryptogram", BYTES], ["code", BYTES], ["response", 8]],
  emv_response_2: [["session", BYTES], ["cryptogram", BYTES], ["status", BYTES], ["bytes", LIST], ["response", 4]],
  key_block_unwrap: [["protection", LIST], ["block", LIST], ["header", 10], ["key", 24], ["length", 8]],
  key_block_header: [["block", LIST], ["text", 10]],
  key_block_context: [["block", LIST], ["context", 1]],
  key_block_optional_block: [["block", LIST], ["place", SIZE], ["name", 3], ["offset", 8], ["length", 8]],
  pin_encode_0: [["pin", LIST], ["account", LIST], ["block", 8]],
  pin_encode_1: [["pin", LIST], ["transaction", BYTES], ["block", 8]],
  pin_encode_2: [["pin", LIST], ["block", 8]],
  pin_encode_3: [["pin", LIST], ["account", LIST], ["fill", BYTES], ["block", 8]],
  pin_decode_0: [["block", BYTES], ["account", LIST], ["pin", 13]],
  pin_decode_1: [["block", BYTES], ["pin", 13]],
  pin_decode_2: [["block", BYTES], ["pin", 13]],
  pin_decode_3: [["block", BYTES], ["account", LIST], ["pin", 13]],
  pvv: [["key", BYTES], ["account", LIST], ["index", NUMBER], ["pin", LIST], ["value", 5]],
  pvv_verify: [["key", BYTES], ["account", LIST], ["index", NUMBER], ["pin", LIST], ["value", LIST]],
  decimal_table_init: [["table", 16], ["text", LIST]],
  decimal_table_init_any: [["table", 16], ["text", LIST]],
  natural_pin: [["key", LIST], ["table", BYTES], ["validation", BYTES], ["count", SIZE], ["pin", 13]],
  pin_offset: [["key", LIST], ["table", BYTES], ["validation", BYTES], ["pin", LIST], ["offset", 13]],
  pin_offset_verify: [["key", LIST], ["table", BYTES], ["validation", BYTES], ["pin", LIST], ["offset", LIST]],
  pin_translate_to_0: [
    ["incoming", LIST],
    ["format", NUMBER],
    ["outgoing", LIST],
    ["account", LIST],
    ["block", BYTES],
    ["translated", 8],
  ],
  pin_translate_to_1: [["incoming", LIST], ["outgoing", LIST], ["block", BYTES], ["translated", 8]],
  pin_translate_to_3: [
    ["incoming", LIST],
    ["format", NUMBER],
    ["outgoing", LIST],
    ["account", LIST],
    ["fill", BYTES],
    ["block", BYTES],
    ["translated", 8],
  ],
};
// This ends what bindings/describe made.

/** Makes a call with arguments by their names, and gives what it writes by its names. `given` may ask for the state of an object. */
function made(name, given) {
  return inside((memory) => {
    const values = typeof given === "function" ? given(memory) : given;
    const outputs = [];
    const words = CALLS[name].flatMap(([argument, how]) => {
      if (typeof how === "function") return how(memory, values[argument]);
      outputs.push([argument, memory.allocate(how), how]);
      return [outputs.at(-1)[1]];
    });
    memory.call(name, ...words);
    return Object.fromEntries(outputs.map(([argument, at, size]) => [argument, memory.taken(at, size)]));
  });
}

/** The bytes that a call writes, which writes nothing else. */
const written = (name, given) => Object.values(made(name, given))[0];

/** The digits that a call writes, up to its zero byte. */
function writtenText(name, given) {
  const bytes = written(name, given);
  const text = String.fromCharCode(...bytes.filter((byte) => byte !== 0));
  bytes.fill(0);
  return text;
}

// ---- Loading --------------------------------------------------------------------------------------------------------

// A module that has a 64-bit memory and nothing else.
const OF_64_BITS = Uint8Array.of(0, 97, 115, 109, 1, 0, 0, 0, 5, 3, 1, 4, 1);

const hasMemory64 = () => WebAssembly.validate(OF_64_BITS);

export function isSupported(...more) {
  refuseMore(more);
  return typeof WebAssembly === "object";
}

/** The bytes of the module beside this file that the engine can run. */
async function fileBeside() {
  const place = new URL(hasMemory64() ? "cukvashe_des.wasm" : "cukvashe_des_32.wasm", import.meta.url);
  if (place.protocol === "file:" && typeof process === "object") {
    return (await import("node:fs/promises")).readFile(place);
  }
  const response = await fetch(place);
  if (!response.ok) throw new Error(`${place.pathname} was not sent: status ${response.status}`);
  return response.arrayBuffer();
}

export async function load(module, ...more) {
  refuseMore(more);
  if (!isSupported()) throw new NotSupported("this engine has no WebAssembly");
  const given = module === undefined ? await fileBeside() : module;
  const bytes = (given instanceof ArrayBuffer ? new Uint8Array(given) : bytesOf(given, "the module")).slice();
  if (globalThis.crypto?.subtle !== undefined) {
    const sum = hexOf(new Uint8Array(await crypto.subtle.digest("SHA-256", bytes)));
    if (sum !== MODULE_SUM && sum !== NARROW_SUM) {
      throw new ModuleMismatch("the module is not one that this file was built with");
    }
    if (sum === MODULE_SUM && !hasMemory64()) {
      throw new NotSupported("this engine has no 64-bit memory for WebAssembly: load the bytes of cukvashe_des_32.wasm");
    }
  }
  const { module: made, instance } = await WebAssembly.instantiate(bytes, {});
  compiled = made;
  workspace = new Workspace(instance.exports);
}

const hexOf = (bytes) => Array.from(bytes, (byte) => byte.toString(16).padStart(2, "0")).join("");

// ---- What holds a key -----------------------------------------------------------------------------------------------

// Of each class of ciphers or MACs the bytes of its key, and the words of its cipher's context, of the retail MAC of both
// keys; of a MAC also its number in ISO/IEC 9797-1. By these a call knows what it works with.
const kinds = new Map();

// The words of a MAC's context after those of its cipher: how far it has come in its message.
const MESSAGE_WORDS = 4;

/** What a call takes of a context that is laid down: where it is and its words, of a MAC its number and its message too. */
function contextAt({ words, algorithm }, at) {
  const count = BigInt(words);
  return algorithm === undefined ? [at, count] : [algorithm, at, count, at + 8n * count];
}

// Of each cipher, stream, MAC, terminal and decimalization table its class, its kind, its context, which is null once it was
// closed, and the instance that made it: of an instance in which a call did not end nobody knows what it had written. No
// text of an object shows them.
const states = new WeakMap();

/** Keeps what the instance in use made, and gives the object. */
function keep(object, Base, kind, context) {
  states.set(object, { Base, kind, context, maker: workspace });
  return object;
}

/** The kind of a class, which may be one that a caller made of ours. */
function kindOf(Class, Base, what) {
  for (let at = Class; typeof at === "function" && at.prototype instanceof Base; at = Object.getPrototypeOf(at)) {
    if (kinds.has(at)) return kinds.get(at);
  }
  throw new TypeError(`${what}: a class is needed, such as ${Base === Cipher ? "TdesEde2" : "RetailMacDes"}`);
}

// The last word of the calls that make a context, of one with tables.
const WITH_TABLES = 0;

class Keyed {
  close(...more) {
    refuseMore(more);
    const state = states.get(this);
    if (state === undefined) return;
    state.context?.fill(0);
    state.context = null;
  }
}

if (Symbol.dispose !== undefined) Object.defineProperty(Keyed.prototype, Symbol.dispose, { value: Keyed.prototype.close });

// ---- Ciphers --------------------------------------------------------------------------------------------------------

const CTR = 31;
const OFB = 32;
const CFB1 = 40;

// What says of CFB how it is called.
const WITH_SEGMENT = "{ iv, segmentSize }), with the bits of a segment (by CFB alone PyCryptodome means 8, node:crypto 64)";

/** The number of CFB with segments of `segmentSize` bits. */
function cfbOf(segmentSize) {
  if (typeof segmentSize !== "number") throw new TypeError("segmentSize: a number of bits is needed");
  if (segmentSize === 1 || (segmentSize % 8 === 0 && segmentSize >= 8 && segmentSize <= 64)) {
    return CFB1 + Math.floor(segmentSize / 8);
  }
  throw new SegmentSize("a segment has 1 bit, or 8, 16, 24, 32, 40, 48, 56 or 64");
}

class Cipher extends Keyed {
  static blockSize = BLOCK_SIZE;

  constructor(key, ...more) {
    super();
    refuseMore(more, "a cipher takes a key alone, and neither a vector nor options");
    const kind = kindOf(new.target, Cipher, "a cipher");
    const keyBytes = keyOf(key, kind.keySize);
    const size = 8 * kind.words;
    const context = inside((memory) => {
      const at = memory.allocate(size);
      memory.call("internal_init", ...contextAt(kind, at), ...memory.list(keyBytes), WITH_TABLES);
      return memory.taken(at, size);
    });
    keep(this, Cipher, kind, context);
  }

  encryptEcb(data, ...more) {
    return ecb(this, "internal_encrypt_ecb", data, more);
  }

  decryptEcb(data, ...more) {
    return ecb(this, "internal_decrypt_ecb", data, more);
  }

  encryptCbc(data, ...named) {
    const [iv] = afterData("encryptCbc(data, { iv })", named, ["iv"]);
    return applied(this, "internal_encrypt_cbc", data, [vectorOf(iv)]);
  }

  decryptCbc(data, ...named) {
    const [iv] = afterData("decryptCbc(data, { iv })", named, ["iv"]);
    return applied(this, "internal_decrypt_cbc", data, [vectorOf(iv)]);
  }

  encryptCtr(data, ...named) {
    const [counter] = afterData("encryptCtr(data, { counter })", named, ["counter"]);
    return inMode(this, "internal_encrypt_mode", CTR, counterOf(counter), data);
  }

  decryptCtr(data, ...named) {
    const [counter] = afterData("decryptCtr(data, { counter })", named, ["counter"]);
    return inMode(this, "internal_decrypt_mode", CTR, counterOf(counter), data);
  }

  encryptOfb(data, ...named) {
    const [iv] = afterData("encryptOfb(data, { iv })", named, ["iv"]);
    return inMode(this, "internal_encrypt_mode", OFB, vectorOf(iv), data);
  }

  decryptOfb(data, ...named) {
    const [iv] = afterData("decryptOfb(data, { iv })", named, ["iv"]);
    return inMode(this, "internal_decrypt_mode", OFB, vectorOf(iv), data);
  }

  encryptCfb(data, ...named) {
    const [iv, size] = afterData(`encryptCfb(data, ${WITH_SEGMENT}`, named, ["iv", "segmentSize"]);
    return inMode(this, "internal_encrypt_mode", cfbOf(size), vectorOf(iv), data);
  }

  decryptCfb(data, ...named) {
    const [iv, size] = afterData(`decryptCfb(data, ${WITH_SEGMENT}`, named, ["iv", "segmentSize"]);
    return inMode(this, "internal_decrypt_mode", cfbOf(size), vectorOf(iv), data);
  }
}

function ecb(cipher, call, data, more) {
  refuseMore(more, "ECB takes data alone, and no initialization vector");
  return applied(cipher, call, data, []);
}

/** What a call makes of data, in place, with or without a vector. */
function applied(cipher, call, data, vectors) {
  const bytes = bytesOf(data, "data");
  return inside((memory) => {
    const { kind, context } = memory.state(cipher, Cipher);
    const [at, length] = memory.list(bytes);
    const laid = [...contextAt(kind, memory.put(context)), ...vectors.map((vector) => memory.put(vector))];
    if (memory.ask(call, ...laid, at, length / BigInt(BLOCK_SIZE), length) !== OK) {
      throw new BlockLength(`${bytes.length} bytes are not whole blocks of ${BLOCK_SIZE}`);
    }
    return memory.taken(at, bytes.length);
  });
}

/** What a call makes of data of any length, in place, in a mode without padding. */
function inMode(cipher, call, mode, vector, data) {
  const bytes = bytesOf(data, "data");
  return inside((memory) => {
    const { kind, context } = memory.state(cipher, Cipher);
    const [at, length] = memory.list(bytes);
    memory.call(call, ...contextAt(kind, memory.put(context)), mode, memory.put(vector), at, length);
    return memory.taken(at, bytes.length);
  });
}

export class Des extends Cipher {
  static keySize = 8;
}

export class TdesEde2 extends Cipher {
  static keySize = 16;
}

export class TdesEde3 extends Cipher {
  static keySize = 24;
}

kinds.set(Des, { keySize: 8, words: 17 });
kinds.set(TdesEde2, { keySize: 16, words: 33 });
kinds.set(TdesEde3, { keySize: 24, words: 49 });

/** The kind of a class of ciphers, the first argument of a call. */
const cipherOf = (Class) => kindOf(Class, Cipher, "the first argument");

// ---- Streams: CTR, OFB and CFB of data that come in pieces -----------------------------------------------------------

const STREAM_SIZE = 32;

/** The beginning of a stream under a cipher, from a vector. */
function begin(stream, cipher, mode, vector) {
  const counter = vector.slice();
  const state = inside((memory) => {
    memory.state(cipher, Cipher, "the first argument");
    const at = memory.allocate(STREAM_SIZE);
    memory.call("stream_begin", at, mode, memory.put(counter));
    return memory.taken(at, STREAM_SIZE);
  });
  keep(stream, Stream, { cipher, mode, counter, direction: null }, state);
}

/**
 * What a direction, "encrypt" or "decrypt", makes of the bytes that come next; `bits` gives how many bits it takes, if it takes them. A
 * stream goes on in the direction of its first bytes.
 */
function streamed(stream, direction, data, bits = () => []) {
  const bytes = bytesOf(data, "data");
  return inside((memory) => {
    const { kind: of, context: state } = memory.state(stream, Stream);
    const { kind, context } = memory.state(of.cipher, Cipher);
    const counts = bits(of.mode, bytes);
    if (of.direction !== null && of.direction !== direction) {
      throw new Direction(`this stream ${of.direction}s: begin another to ${direction}`);
    }
    const [[at, length], place] = [memory.list(bytes), memory.put(state)];
    const call = `internal_${direction}_stream${counts.length === 0 ? "" : "_bits"}`;
    memory.call(call, ...contextAt(kind, memory.put(context)), place, at, length, ...counts);
    memory.take(place, state);
    if ((counts[0] ?? length) > 0) of.direction = direction;
    return memory.taken(at, bytes.length);
  });
}

class Stream extends Keyed {
  encrypt(data, ...more) {
    refuseMore(more, "encrypt takes data alone");
    return streamed(this, "encrypt", data);
  }

  decrypt(data, ...more) {
    refuseMore(more, "decrypt takes data alone");
    return streamed(this, "decrypt", data);
  }

  copy(...more) {
    refuseMore(more);
    return inside((memory) => {
      const { kind, context } = memory.state(this, Stream);
      return keep(Object.create(Object.getPrototypeOf(this)), Stream, { ...kind }, context.slice());
    });
  }
}

/** A position in a stream, which may be a BigInt. */
function positionOf(position) {
  if (typeof position !== "number" && typeof position !== "bigint") throw new TypeError("a position: a number is needed");
  const isWhole = typeof position === "bigint" || Number.isSafeInteger(position);
  if (isWhole && position >= 0 && position < 2n ** 67n) return BigInt(position);
  throw new Position("a position in a stream is 0 to 2^67 - 1, from 2^53 on a BigInt");
}

const CIPHER_FIRST = "the cipher comes";

export class Ctr extends Stream {
  constructor(cipher, ...named) {
    super();
    const [counter] = afterData("new Ctr(cipher, { counter })", named, ["counter"], CIPHER_FIRST);
    begin(this, cipher, CTR, counterOf(counter));
  }

  seek(position, ...more) {
    refuseMore(more);
    const place = positionOf(position);
    const rest = place % 8n;
    inside((memory) => {
      const { kind: of, context: state } = memory.state(this, Stream);
      const { kind, context } = memory.state(of.cipher, Cipher);
      const at = memory.allocate(STREAM_SIZE);
      memory.call("stream_begin_ctr_at", at, memory.put(of.counter), place / 8n);
      const skipped = memory.allocate(Number(rest));
      memory.call("internal_encrypt_stream", ...contextAt(kind, memory.put(context)), at, skipped, rest);
      memory.take(at, state);
      of.direction = null;
    });
  }
}

export class Ofb extends Stream {
  constructor(cipher, ...named) {
    super();
    const [iv] = afterData("new Ofb(cipher, { iv })", named, ["iv"], CIPHER_FIRST);
    begin(this, cipher, OFB, vectorOf(iv));
  }
}

export class Cfb extends Stream {
  constructor(cipher, ...named) {
    super();
    const [iv, size] = afterData(`new Cfb(cipher, ${WITH_SEGMENT}`, named, ["iv", "segmentSize"], CIPHER_FIRST);
    begin(this, cipher, cfbOf(size), vectorOf(iv));
  }

  encryptBits(data, bits, ...more) {
    refuseMore(more);
    return streamed(this, "encrypt", data, bitsOf(bits));
  }

  decryptBits(data, bits, ...more) {
    refuseMore(more);
    return streamed(this, "decrypt", data, bitsOf(bits));
  }
}

/** Tests a number of bits, by a mode and by bytes. */
function bitsOf(bits) {
  if (typeof bits !== "number") throw new TypeError("the number of bits: a number is needed");
  return (mode, bytes) => {
    if (mode !== CFB1) throw new SegmentSize("bits are taken with segments of 1 bit alone");
    if (Number.isInteger(bits) && bits >= 0 && bits <= 8 * bytes.length) return [BigInt(bits)];
    throw new DataLength(`the number of bits is a whole number from 0 to ${8 * bytes.length}`);
  };
}

// ---- Message authentication codes -----------------------------------------------------------------------------------

const LEAST_TAG_SIZE = 4;

class Mac extends Keyed {
  static digestSize = TAG_SIZE;

  update(data, ...more) {
    refuseMore(more, "update takes data alone");
    const bytes = bytesOf(data, "data");
    inside((memory) => {
      const { kind, context } = memory.state(this, Mac);
      const at = memory.put(context);
      memory.call("internal_mac_update", ...contextAt(kind, at), ...memory.list(bytes));
      memory.take(at, context);
    });
    return this;
  }

  digest(encoding, ...more) {
    refuseMore(more);
    if (encoding !== undefined && encoding !== "hex") throw new TypeError('digest takes no argument but "hex"');
    const tag = inside((memory) => {
      const { kind, context } = memory.state(this, Mac);
      const at = memory.allocate(TAG_SIZE);
      memory.call("internal_mac_final", ...contextAt(kind, memory.put(context)), at);
      return memory.taken(at, TAG_SIZE);
    });
    return encoding === "hex" ? hexOf(tag) : tag;
  }

  verify(tag, ...more) {
    refuseMore(more);
    return accepted(this, tag, TAG_SIZE);
  }

  verifyTruncatedLeft(tag, ...more) {
    refuseMore(more);
    return accepted(this, tag, LEAST_TAG_SIZE);
  }

  copy(...more) {
    refuseMore(more);
    return inside((memory) => {
      const { kind, context } = memory.state(this, Mac);
      return keep(Object.create(Object.getPrototypeOf(this)), Mac, kind, context.slice());
    });
  }
}

function accepted(mac, tag, least) {
  const bytes = bytesOf(tag, "a tag");
  const status = inside((memory) => {
    const { kind, context } = memory.state(mac, Mac);
    return memory.ask("internal_mac_verify", ...contextAt(kind, memory.put(context)), ...memory.list(bytes));
  });
  if (status !== OK || bytes.length < least) throw faultOf(TAG);
  return true;
}

/** The context of a MAC under a key, of a message that begins with these bytes. */
function macContextOf(kind, key, padding, bytes) {
  const size = 8 * (kind.words + MESSAGE_WORDS);
  return inside((memory) => {
    const at = memory.allocate(size);
    memory.call("internal_mac_init", ...contextAt(kind, at), ...memory.list(key), padding, WITH_TABLES);
    memory.call("internal_mac_update", ...contextAt(kind, at), ...memory.list(bytes));
    return memory.taken(at, size);
  });
}

class PaddedMac extends Mac {
  constructor(key, padding, data = new Uint8Array(), ...more) {
    super();
    refuseMore(more, "a MAC takes a key, a padding method and data alone");
    const kind = kindOf(new.target, PaddedMac, "a MAC");
    const [keyBytes, method, bytes] = [keyOf(key, kind.keySize), paddingOf(padding), bytesOf(data, "data")];
    keep(this, Mac, kind, macContextOf(kind, keyBytes, method, bytes));
  }
}

// The number of CMAC, and its padding, since it takes no other.
const CMAC = 5;
const CMAC_PADDING = 2;

class Cmac extends Mac {
  constructor(key, data = new Uint8Array(), ...more) {
    super();
    refuseMore(more, "CMAC takes a key and data alone");
    const kind = kindOf(new.target, Cmac, "a MAC");
    const [keyBytes, bytes] = [keyOf(key, kind.keySize), bytesOf(data, "data")];
    keep(this, Mac, kind, macContextOf(kind, keyBytes, CMAC_PADDING, bytes));
  }
}

export class CbcMacDes extends PaddedMac {
  static keySize = 8;
}

export class CbcMacTdesEde2 extends PaddedMac {
  static keySize = 16;
}

export class CbcMacTdesEde3 extends PaddedMac {
  static keySize = 24;
}

export class RetailMacDes extends PaddedMac {
  static keySize = 16;
}

export class CmacTdesEde2 extends Cmac {
  static keySize = 16;
}

export class CmacTdesEde3 extends Cmac {
  static keySize = 24;
}

kinds.set(CbcMacDes, { algorithm: 1, keySize: 8, words: 17 });
kinds.set(CbcMacTdesEde2, { algorithm: 1, keySize: 16, words: 33 });
kinds.set(CbcMacTdesEde3, { algorithm: 1, keySize: 24, words: 49 });
kinds.set(RetailMacDes, { algorithm: 3, keySize: 16, words: 34 });
kinds.set(CmacTdesEde2, { algorithm: CMAC, keySize: 16, words: 33 });
kinds.set(CmacTdesEde3, { algorithm: CMAC, keySize: 24, words: 49 });

// ---- Padding --------------------------------------------------------------------------------------------------------

const METHODS = new Map([["pkcs7", 11], ["iso7816", 12]]);

function methodOf(method) {
  if (typeof method !== "string") throw new TypeError('the padding method: "pkcs7" or "iso7816" is needed');
  if (!METHODS.has(method)) throw new PaddingMethod('padding is by "pkcs7" or "iso7816"');
  return METHODS.get(method);
}

export function pad(data, method, ...more) {
  refuseMore(more);
  const number = methodOf(method);
  const bytes = bytesOf(data, "data");
  return inside((memory) => {
    const capacity = bytes.length + BLOCK_SIZE;
    const [at, length] = [memory.allocate(capacity), memory.allocate(8)];
    memory.lay(at, bytes);
    memory.call("internal_pad", at, BigInt(capacity), BigInt(bytes.length), number, length);
    return memory.taken(at, memory.word(length));
  });
}

export function unpad(data, method, ...more) {
  refuseMore(more);
  const number = methodOf(method);
  const bytes = bytesOf(data, "data");
  return inside((memory) => {
    const [at, size] = memory.list(bytes);
    const length = memory.allocate(8);
    const status = memory.ask("unpad", at, size, number, length);
    if (status === BLOCKS) throw new BlockLength(`${bytes.length} bytes are not whole blocks of ${BLOCK_SIZE}`);
    check(status);
    return memory.taken(at, memory.word(length));
  });
}

// ---- Keys -----------------------------------------------------------------------------------------------------------

const SIZES = [8, 16, 24];

export function isWeakKey(key, ...more) {
  refuseMore(more);
  const bytes = keyOf(key, ...SIZES);
  return inside((memory) => memory.ask("weak_key_test", ...memory.list(bytes))) === WEAK_KEY;
}

export function withOddParity(key, ...more) {
  refuseMore(more);
  const bytes = keyOf(key, ...SIZES);
  return inside((memory) => {
    const [at, length] = memory.list(bytes);
    memory.call("set_odd_parity", at, length);
    return memory.taken(at, bytes.length);
  });
}

export function equalButParity(first, second, ...more) {
  refuseMore(more);
  const one = keyOf(first, ...SIZES);
  const other = keyOf(second, one.length);
  return inside((memory) => memory.ask("internal_equal_but_parity", ...memory.list(one), ...memory.list(other))) !== 0;
}

export function checkValue(cipher, key, ...more) {
  refuseMore(more);
  const { keySize } = cipherOf(cipher);
  const bytes = keyOf(key, keySize);
  return written("internal_check_value", { keySize, key: bytes });
}

export function combine(first, second, ...others) {
  const one = keyOf(first, ...SIZES);
  const size = one.length;
  const other = keyOf(second, size);
  const more = others.map((component) => keyOf(component, size));
  return inside((memory) => {
    const laid = [...memory.list(one), ...memory.list(other)];
    const rest = memory.allocate(size * more.length);
    more.forEach((component, place) => memory.lay(rest + BigInt(size * place), component));
    const at = memory.allocate(size);
    if (memory.ask("internal_combine", ...laid, rest, BigInt(size * more.length), at, BigInt(size)) !== OK) {
      throw new WeakKey("the weak key test refuses the key that the components make");
    }
    return memory.taken(at, size);
  });
}

// ---- Keys of a transaction (DUKPT with triple DES, ANSI X9.24-1:2009, the host's side) ------------------------------

const SERIAL_SIZE = 10;
const TRANSACTION_KEY_SIZE = 16;

export function dukptNextSerial(serial, ...more) {
  refuseMore(more);
  const number = serialOf(serial);
  return inside((memory) => {
    const [at, next] = [memory.put(number), memory.allocate(SERIAL_SIZE)];
    return memory.ask("dukpt_next_serial", at, next) === OK ? memory.taken(next, SERIAL_SIZE) : null;
  });
}

export function dukptIsUsable(serial, ...more) {
  refuseMore(more);
  const number = serialOf(serial);
  return inside((memory) => memory.ask("dukpt_is_usable", memory.put(number))) !== 0;
}

const STATE_SIZE = 346;

/** Whether a state has a future key, as one of zeros does not. All bytes are read, whatever they are. */
const hasFutureKey = (context) => context.subarray(SERIAL_SIZE).reduce((bits, byte) => bits | byte, 0) !== 0;

export class DukptTerminal extends Keyed {
  constructor(initial, serial, ...more) {
    super();
    refuseMore(more);
    const [key, number] = [keyOf(initial, TRANSACTION_KEY_SIZE), serialOf(serial)];
    const context = inside((memory) => {
      const at = memory.allocate(STATE_SIZE);
      memory.call("dukpt_terminal_init", at, memory.put(key), memory.put(number));
      return memory.taken(at, STATE_SIZE);
    });
    keep(this, DukptTerminal, null, context);
  }

  static fromState(state, ...more) {
    refuseMore(more);
    const { prototype } = this;
    const bytes = dataOf(state, STATE_SIZE, "the state of a terminal", "has", StateLength);
    const context = inside((memory) => memory.taken(memory.put(bytes), STATE_SIZE));
    return keep(Object.create(prototype), DukptTerminal, null, context);
  }

  nextKey(...more) {
    refuseMore(more);
    return inside((memory) => {
      const { context } = memory.state(this, DukptTerminal);
      const at = memory.put(context);
      const [serial, key] = [memory.allocate(SERIAL_SIZE), memory.allocate(TRANSACTION_KEY_SIZE)];
      if (!hasFutureKey(context) || memory.ask("dukpt_terminal_next_key", at, serial, key) !== OK) {
        throw new NoSerial("the terminal has no key for a next transaction");
      }
      memory.take(at, context);
      return { serial: memory.taken(serial, SERIAL_SIZE), key: memory.taken(key, TRANSACTION_KEY_SIZE) };
    });
  }

  state(...more) {
    refuseMore(more);
    return inside((memory) => memory.state(this, DukptTerminal).context.slice());
  }
}

// ---- PIN blocks (ISO 9564-1) and their translation. Numbers are strings, or bytes, of digits -----------------

const pinOf = (pin) => textOf(pin, "a PIN");
const accountOf = (account) => textOf(account, "an account number");

export function pinEncode0(pin, account, ...more) {
  refuseMore(more);
  return written("pin_encode_0", { pin: pinOf(pin), account: accountOf(account) });
}

export function pinEncode1(pin, transaction, ...more) {
  refuseMore(more);
  return written("pin_encode_1", { pin: pinOf(pin), transaction: fillOf(transaction) });
}

export function pinEncode2(pin, ...more) {
  refuseMore(more);
  return written("pin_encode_2", { pin: pinOf(pin) });
}

export function pinEncode3(pin, account, fill, ...more) {
  refuseMore(more);
  return written("pin_encode_3", { pin: pinOf(pin), account: accountOf(account), fill: fillOf(fill) });
}

export function pinDecode0(block, account, ...more) {
  refuseMore(more);
  return writtenText("pin_decode_0", { account: accountOf(account), block: blockOf(block) });
}

export function pinDecode1(block, ...more) {
  refuseMore(more);
  return writtenText("pin_decode_1", { block: blockOf(block) });
}

export function pinDecode2(block, ...more) {
  refuseMore(more);
  return writtenText("pin_decode_2", { block: blockOf(block) });
}

export function pinDecode3(block, account, ...more) {
  refuseMore(more);
  return writtenText("pin_decode_3", { account: accountOf(account), block: blockOf(block) });
}

export function pinTranslateTo0(incomingFormat, account, block, keys, ...more) {
  refuseMore(more);
  return written("pin_translate_to_0", translated(incomingFormat, account, [], block, keys));
}

export function pinTranslateTo1(block, keys, ...more) {
  refuseMore(more);
  const { incomingKey, outgoingKey } = translationOf(keys);
  const [incoming, outgoing] = [keyOf(incomingKey, ...SIZES), keyOf(outgoingKey, ...SIZES)];
  return written("pin_translate_to_1", { incoming, outgoing, block: blockOf(block) });
}

export function pinTranslateTo3(incomingFormat, account, fill, block, keys, ...more) {
  refuseMore(more);
  return written("pin_translate_to_3", translated(incomingFormat, account, [fill], block, keys));
}

/** The keys of a translation, by their names. */
const translationOf = (keys) => optionsOf(keys, "incomingKey", "outgoingKey");

/** What a translation takes, with fill digits or without. */
function translated(incomingFormat, account, fills, block, keys) {
  const { incomingKey, outgoingKey } = translationOf(keys);
  const [format, [fill]] = [numberOf(incomingFormat, 0, 3, "the incoming format"), fills.map(fillOf)];
  const [incoming, outgoing] = [keyOf(incomingKey, ...SIZES), keyOf(outgoingKey, ...SIZES)];
  return { incoming, format, outgoing, account: accountOf(account), fill, block: blockOf(block) };
}

// ---- PIN verification: the PIN verification value (PVV), and natural PINs and offsets by the method of the IBM 3624

export function pvv(key, account, index, pin, ...more) {
  refuseMore(more);
  return writtenText("pvv", valueOf(key, account, index, pin));
}

export function pvvVerify(key, account, index, pin, value, ...more) {
  refuseMore(more);
  const given = valueOf(key, account, index, pin);
  made("pvv_verify", { ...given, value: textOf(value, "a PIN verification value") });
  return true;
}

/** What the calls of PIN verification values take. */
function valueOf(key, account, index, pin) {
  const place = numberOf(index, 1, 6, "the index of the key pair");
  return { key: keyOf(key, 16), account: accountOf(account), index: place, pin: pinOf(pin) };
}

export class DecimalTable {
  constructor(digits, ...more) {
    refuseMore(more);
    keep(this, DecimalTable, null, tableOf("decimal_table_init", digits));
  }

  static ofAnyVariety(digits, ...more) {
    refuseMore(more);
    const { prototype } = this;
    return keep(Object.create(prototype), DecimalTable, null, tableOf("decimal_table_init_any", digits));
  }
}

/** The table that a call makes of digits. */
const tableOf = (call, digits) => written(call, { text: textOf(digits, "a decimalization table") });

/** A key, a decimalization table and validation data, sixteen digits in 8 bytes, as the calls below take them, and more. */
function naturalOf(key, table, validation, more) {
  const data = dataOf(validation, BLOCK_SIZE, "validation data", "have", BlockLength);
  const given = { key: keyOf(key, ...SIZES), validation: data, ...more() };
  return (memory) => ({ ...given, table: memory.state(table, DecimalTable, "the decimalization table").context });
}

export function naturalPin(key, table, validation, length, ...more) {
  refuseMore(more);
  const count = () => ({ count: numberOf(length, 4, 12, "the length of the PIN") });
  return writtenText("natural_pin", naturalOf(key, table, validation, count));
}

export function pinOffset(key, table, validation, pin, ...more) {
  refuseMore(more);
  return writtenText("pin_offset", naturalOf(key, table, validation, () => ({ pin: pinOf(pin) })));
}

export function pinOffsetVerify(key, table, validation, pin, offset, ...more) {
  refuseMore(more);
  const texts = () => ({ pin: pinOf(pin), offset: textOf(offset, "an offset") });
  made("pin_offset_verify", naturalOf(key, table, validation, texts));
  return true;
}

// ---- Check values, keys of a transaction, card verification values, and card cryptograms ----------------------------

// Calls like those of cukvashe_des.h: made of it by bindings/describe.

export function keyCheckValue(key, ...more) {
  refuseMore(more);
  const given = {
    key: keyOf(key, 8, 16, 24),
  };
  return written("key_check_value", given);
}

export function shortKeyCheckValue(key, ...more) {
  refuseMore(more);
  const given = {
    key: keyOf(key, 8, 16, 24),
  };
  return written("short_key_check_value", given);
}

export function dukptInitialKey(base, serial, ...more) {
  refuseMore(more);
  const given = {
    serial: dataOf(serial, 10, "a key serial number", "has", SerialLength),
    base: keyOf(base, 16),
  };
  return written("dukpt_initial_key", given);
}

export function dukptTransactionKey(initial, serial, ...more) {
  refuseMore(more);
  const given = {
    serial: dataOf(serial, 10, "a key serial number", "has", SerialLength),
    initial: keyOf(initial, 16),
  };
  return written("dukpt_transaction_key", given);
}

export function dukptPinKey(transaction, ...more) {
  refuseMore(more);
  const given = {
    transaction: keyOf(transaction, 16),
  };
  return written("dukpt_pin_key", given);
}

export function dukptMacKey(transaction, isResponse = false, ...more) {
  refuseMore(more);
  const given = {
    isResponse: responseOf(isResponse),
    transaction: keyOf(transaction, 16),
  };
  return written("dukpt_mac_key", given);
}

export function dukptDataKey(transaction, isResponse = false, ...more) {
  refuseMore(more);
  const given = {
    isResponse: responseOf(isResponse),
    transaction: keyOf(transaction, 16),
  };
  return written("dukpt_data_key", given);
}

export function dukptDataVariant(transaction, isResponse = false, ...more) {
  refuseMore(more);
  const given = {
    isResponse: responseOf(isResponse),
    transaction: keyOf(transaction, 16),
  };
  return written("dukpt_data_variant", given);
}

export function cvv(key, account, expiry, service, ...more) {
  refuseMore(more);
  const given = {
    key: keyOf(key, 16),
    account: textOf(account, "an account number"),
    expiry: textOf(expiry, "an expiry date"),
    service: textOf(service, "a service code"),
  };
  return writtenText("cvv", given);
}

export function emvCardKey(issuer, account, sequence, ...more) {
  refuseMore(more);
  const given = {
    issuer: keyOf(issuer, 16),
    account: textOf(account, "an account number"),
    sequence: textOf(sequence, "a sequence number"),
  };
  return written("emv_card_key", given);
}

export function emvCardKeyB(issuer, account, sequence, ...more) {
  refuseMore(more);
  const given = {
    issuer: keyOf(issuer, 16),
    account: textOf(account, "an account number"),
    sequence: textOf(sequence, "a sequence number"),
  };
  return written("emv_card_key_b", given);
}

export function emvApplicationKey(card, counter, ...more) {
  refuseMore(more);
  const given = {
    counter: dataOf(counter, 2, "a transaction counter", "has", DataLength),
    card: keyOf(card, 16),
  };
  return written("emv_application_key", given);
}

export function emvSessionKey(card, block, ...more) {
  refuseMore(more);
  const given = {
    block: dataOf(block, 8, "the block of a session", "has", BlockLength),
    card: keyOf(card, 16),
  };
  return written("emv_session_key", given);
}

export function emvApplicationCryptogram(session, data, ...more) {
  refuseMore(more);
  const given = {
    bytes: bytesOf(data, "data"),
    session: keyOf(session, 16),
  };
  return written("emv_application_cryptogram", given);
}

export function emvResponse1(session, cryptogram, code, ...more) {
  refuseMore(more);
  const given = {
    cryptogram: dataOf(cryptogram, 8, "an application cryptogram", "has", BlockLength),
    code: dataOf(code, 2, "a response code", "has", DataLength),
    session: keyOf(session, 16),
  };
  return written("emv_response_1", given);
}

export function emvResponse2(session, cryptogram, status, data = new Uint8Array(), ...more) {
  refuseMore(more);
  const given = {
    cryptogram: dataOf(cryptogram, 8, "an application cryptogram", "has", BlockLength),
    status: dataOf(status, 4, "a card status update", "has", DataLength),
    bytes: bytesOf(data, "data"),
    session: keyOf(session, 16),
  };
  return written("emv_response_2", given);
}
// This ends what bindings/describe made.

// ---- Key blocks (ANSI X9.143, ASC X9 TR-31): a key with what it is for, encrypted and authenticated under another -----

const KEY_DATA_SIZE = 32;

// More characters than a block has besides its optional blocks, and a zero byte; and more than it can have.
const MORE_CHARACTERS = 128;
const TOO_MANY_CHARACTERS = 10000;

const isAscii = (text) => /^[\0-\x7f]*$/.test(text);

/** The bytes of a text of ASCII characters. Another character becomes one that no field of a header has. */
const asciiOf = (text) => Uint8Array.from(text, (character) => (isAscii(character) ? character.charCodeAt(0) : 63));

/** The characters of a key block. */
function keyBlockOf(block) {
  if (typedArrayName.call(block) === "Uint8Array") return bytesOf(block, "a key block");
  if (typeof block !== "string") throw new TypeError("a key block: a string is needed");
  if (!isAscii(block)) throw new KeyBlockDigit("a key block has ASCII characters alone");
  return asciiOf(block);
}

/** The header of the fields that a call wrote. */
function headerFrom(fields) {
  const text = charactersOf(fields);
  const [usage, keyVersion] = [text.slice(1, 3), text.slice(6, 8)];
  return { version: text[0], usage, algorithm: text[4], mode: text[5], keyVersion, exportability: text[9] };
}

const FIELDS = ["version", "usage", "algorithm", "mode", "keyVersion", "exportability"];

/** The fields of a header, as a call takes them. Others would be left out of the block. */
function fieldsOf(header) {
  const { version, usage, algorithm, mode, keyVersion, exportability } = namedOf("a header", header, ...FIELDS);
  const [two, one] = [[usage, keyVersion], [algorithm, mode, exportability]];
  if (![version, ...two, ...one].every((field) => typeof field === "string")) {
    throw new TypeError("the fields of a header: strings are needed");
  }
  if ([...version].length !== 1) throw new KeyBlockVersion("a key block is made of version B or C");
  if (two.some((field) => [...field].length !== 2) || one.some((field) => [...field].length !== 1)) {
    throw new KeyBlockField("the usage and the key's version have two characters, the other fields one");
  }
  return asciiOf(`${version}${usage}\0${algorithm}${mode}${keyVersion}\0${exportability}`);
}

/** An optional block. The library tests its characters, and writes it in its shortest form. */
function optionalText(pair) {
  const parts = Array.isArray(pair) ? [...pair] : [];
  if (parts.length !== 2 || parts.some((part) => typeof part !== "string")) {
    throw new TypeError("an optional block: a pair of its name and its content, two strings, is needed");
  }
  // A character that is not ASCII becomes one that the library refuses.
  const [name, content] = parts.map((text) => text.replace(/[^\0-\x7f]/g, "\x7f"));
  if (name.length !== 2) throw new OptionalBlock("the name of an optional block has two characters, letters or digits");
  if (content.length > TOO_MANY_CHARACTERS) throw new KeyBlockLength("a key block has at most 9999 characters");
  return `${name}0002${(content.length + 10).toString(16).toUpperCase().padStart(4, "0")}${content}`;
}

/** Optional blocks, one after the other. */
function optionalOf(optional) {
  if (typeof optional !== "object" || typeof optional?.[Symbol.iterator] !== "function") {
    throw new TypeError("optional blocks: an array of pairs of a name and its content is needed");
  }
  return asciiOf(Array.from(optional, optionalText).join(""));
}

export function unwrapKeyBlock(protection, block, ...more) {
  refuseMore(more);
  const kbpk = bytesOf(protection, "a protection key");
  const text = keyBlockOf(block);
  const { header, key, length } = made("key_block_unwrap", { protection: kbpk, block: text });
  const size = Number(new DataView(length.buffer).getBigUint64(0, true));
  const bare = key.slice(0, size);
  key.fill(0);
  return { header: headerFrom(header), key: bare };
}

export function wrapKeyBlock(protection, header, key, options = {}, ...more) {
  refuseMore(more);
  const { optional = [], padding } = optionsOf(options, "optional", "padding");
  const [fields, blocks] = [fieldsOf(header), optionalOf(optional)];
  const random = padding === undefined ? crypto.getRandomValues(new Uint8Array(KEY_DATA_SIZE - 2)) : null;
  const [kbpk, bare] = [bytesOf(protection, "a protection key"), bytesOf(key, "a key")];
  const hiding = random?.subarray(bare.length) ?? bytesOf(padding, "the padding");
  return inside((memory) => {
    const laid = [...memory.list(kbpk), memory.put(fields), ...[blocks, bare, hiding].flatMap((bytes) => memory.list(bytes))];
    const capacity = blocks.length + MORE_CHARACTERS;
    const [at, length] = [memory.allocate(capacity), memory.allocate(8)];
    memory.call("key_block_wrap", ...laid, at, BigInt(capacity), length);
    return charactersOf(memory.taken(at, memory.word(length)));
  });
}

export function keyBlockHeader(block, ...more) {
  refuseMore(more);
  return headerFrom(written("key_block_header", { block: keyBlockOf(block) }));
}

export function keyBlockContext(block, ...more) {
  refuseMore(more);
  return charactersOf(written("key_block_context", { block: keyBlockOf(block) }));
}

export function keyBlockOptionalBlocks(block, ...more) {
  refuseMore(more);
  const text = keyBlockOf(block);
  return inside((memory) => {
    const found = [];
    const [at, size] = memory.list(text);
    const [name, offset, length] = [memory.allocate(3), memory.allocate(8), memory.allocate(8)];
    for (;;) {
      const status = memory.ask("key_block_optional_block", at, size, BigInt(found.length), name, offset, length);
      if (status === NO_OPTIONAL_BLOCK) return found;
      check(status);
      const content = memory.taken(at + BigInt(memory.word(offset)), memory.word(length));
      found.push([charactersOf(memory.taken(name, 2)), charactersOf(content)]);
    }
  });
}

// ---- Key wraps: the key wrap of CMS (RFC 3217), and TKW (NIST SP 800-38F) ---------------------------------------------

// How many bytes a wrapped key has more than the key, and of how many is what a call writes: the blocks of CMS, the semiblocks of TKW.
const CMS = { more: 16, unit: 8 };
const TKW = { more: 4, unit: 4 };

// The lengths of a key that TKW takes: CMS has another status for its own.
const WRAPPABLE = new Map([[KEY_LENGTH, ": a multiple of 4 bytes, at least 8"]]);

/** What a call makes of bytes under a protection key: `more` bytes more than were given. It takes the capacity in units. */
function through(call, protection, given, { more, unit }, vectors = []) {
  const [kek, bytes] = [bytesOf(protection, "a protection key"), bytesOf(given, "a key")];
  return inside((memory) => {
    const laid = [...memory.list(kek), ...vectors.map((vector) => memory.put(vector)), ...memory.list(bytes)];
    const capacity = Math.max(bytes.length + more, 0);
    const [at, length] = [memory.allocate(capacity), memory.allocate(8)];
    check(memory.ask(call, ...laid, at, BigInt(Math.floor(capacity / unit)), length), WRAPPABLE);
    return memory.taken(at, memory.word(length));
  });
}

export function cmsWrapKey(protection, key, options = {}, ...more) {
  refuseMore(more);
  const { iv } = optionsOf(options, "iv");
  const vector = iv === undefined ? crypto.getRandomValues(new Uint8Array(BLOCK_SIZE)) : vectorOf(iv);
  return through("cms_wrap_key", protection, key, CMS, [vector]);
}

export function cmsUnwrapKey(protection, wrapped, ...more) {
  refuseMore(more);
  return through("cms_unwrap_key", protection, wrapped, { ...CMS, more: -CMS.more });
}

export function tkwWrapKey(protection, key, ...more) {
  refuseMore(more);
  return through("tkw_wrap_key", protection, key, TKW);
}

export function tkwUnwrapKey(protection, wrapped, ...more) {
  refuseMore(more);
  return through("tkw_unwrap_key", protection, wrapped, { ...TKW, more: -TKW.more });
}

// ---- Keys from passwords, and what `openssl enc` encrypted under them -------------------------------------------------

const HASHES = new Map([["md5", 21], ["sha1", 22], ["sha256", 23]]);

// One more than PBKDF2 counts, which it refuses.
const TOO_MANY_ITERATIONS = 2 ** 32;

/** The number of a hash function. PBKDF2 takes no MD5. */
function hashOf(name, isPbkdf2) {
  const offered = isPbkdf2 ? '"sha1" or "sha256"' : '"md5", "sha1" or "sha256"';
  if (typeof name !== "string") throw new TypeError(`a hash function: ${offered} is needed`);
  if (HASHES.has(name) && !(isPbkdf2 && name === "md5")) return HASHES.get(name);
  throw isPbkdf2 ? faultOf(HASH) : new HashName(`a hash function is ${offered}`);
}

/** A number of iterations, of which there is one at least, or one that is refused. */
function iterationsOf(number) {
  if (typeof number !== "number") throw new TypeError("iterations: a number is needed");
  if (!(Number.isInteger(number) && number >= 1)) throw faultOf(ITERATIONS);
  return BigInt(Math.min(number, TOO_MANY_ITERATIONS));
}

/** The length of a key that is derived. */
function derivedLengthOf(number) {
  if (typeof number !== "number") throw new TypeError("the length of a key: a number is needed");
  if (Number.isInteger(number) && number >= 1 && number < 2 ** 32) return number;
  throw new KeyLength("a key that is derived has at least one byte, and less than 2^32");
}

/** The key of `length` bytes that a call derives. */
function derived(name, hash, password, salt, words, length) {
  const [secret, grains] = [bytesOf(password, "a password"), bytesOf(salt, "a salt")];
  return inside((memory) => {
    const at = memory.allocate(length);
    const laid = [...memory.list(secret), ...memory.list(grains), ...words, at, BigInt(length)];
    const status = memory.ask(name, hash, ...laid);
    if (status === SALT_LENGTH) throw new SaltLength(`the salt of bytesToKey has 0 or 8 bytes, not ${grains.length}`);
    check(status);
    return memory.taken(at, length);
  });
}

export function pbkdf2(hashName, password, salt, iterations, length, ...more) {
  refuseMore(more);
  return derived("pbkdf2", hashOf(hashName, true), password, salt, [iterationsOf(iterations)], derivedLengthOf(length));
}

export function bytesToKey(hashName, password, salt, length, ...more) {
  refuseMore(more);
  return derived("bytes_to_key", hashOf(hashName, false), password, salt, [], derivedLengthOf(length));
}

export function openSalted(cipher, password, data, options = {}, ...more) {
  refuseMore(more);
  const { hashName = "sha256", iterations } = optionsOf(options, "hashName", "iterations");
  const { keySize } = cipherOf(cipher);
  const [secret, bytes] = [bytesOf(password, "a password"), bytesOf(data, "data")];
  const isPbkdf2 = iterations !== undefined;
  const [hash, count] = [hashOf(hashName, isPbkdf2), isPbkdf2 ? iterationsOf(iterations) : 0n];
  return inside((memory) => {
    const [plain, length] = [memory.allocate(bytes.length), memory.allocate(8)];
    const laid = [...memory.list(secret), ...memory.list(bytes), plain, BigInt(bytes.length), length];
    const status = memory.ask("internal_open_salted", BigInt(keySize), hash, count, ...laid);
    if (status === BLOCKS) throw new BlockLength(`${bytes.length} bytes are not whole blocks of ${BLOCK_SIZE}`);
    check(status);
    return memory.taken(plain, memory.word(length));
  });
}

// ---- Lists: elements stand one after the other, without a gap -------------------------------------------------------

export function encryptEach(cipher, keys, blocks, ...more) {
  refuseMore(more);
  return appliedEach("internal_encrypt_each", cipher, keys, blocks);
}

export function decryptEach(cipher, keys, blocks, ...more) {
  refuseMore(more);
  return appliedEach("internal_decrypt_each", cipher, keys, blocks);
}

function appliedEach(call, cipher, keys, blocks) {
  const { keySize } = cipherOf(cipher);
  const given = listOf(blocks, BLOCK_SIZE, BlockLength, "blocks");
  const keyBytes = listOf(keys, keySize, KeyLength, "keys");
  return inside((memory) => {
    const [at, count] = memory.list(given, BLOCK_SIZE);
    if (memory.ask(call, BigInt(keySize), ...memory.list(keyBytes), at, count) !== OK) {
      throw new CountMismatch("the numbers of keys and blocks differ");
    }
    return memory.taken(at, given.length);
  });
}

const CHECK_VALUE_SIZE = 3;

export function checkValues(cipher, keys, ...more) {
  refuseMore(more);
  const { keySize } = cipherOf(cipher);
  const keyBytes = listOf(keys, keySize, KeyLength, "keys");
  const count = keyBytes.length / keySize;
  return inside((memory) => {
    const at = memory.allocate(CHECK_VALUE_SIZE * count);
    memory.call("internal_check_values", BigInt(keySize), ...memory.list(keyBytes), at, BigInt(count));
    return memory.taken(at, CHECK_VALUE_SIZE * count);
  });
}

export function dukptTransactionKeysFromBase(base, serials, ...more) {
  refuseMore(more);
  const key = keyOf(base, TRANSACTION_KEY_SIZE);
  const numbers = listOf(serials, SERIAL_SIZE, SerialLength, "key serial numbers");
  const count = numbers.length / SERIAL_SIZE;
  return inside((memory) => {
    const at = memory.allocate(TRANSACTION_KEY_SIZE * count);
    const laid = [memory.put(key), ...memory.list(numbers, SERIAL_SIZE)];
    memory.call("internal_dukpt_transaction_keys", ...laid, at, BigInt(count));
    return memory.taken(at, TRANSACTION_KEY_SIZE * count);
  });
}

export function encryptCbcRecords(cipher, blocks, ...named) {
  return recorded("encryptCbcRecords", "internal_encrypt_cbc_records", cipher, blocks, named);
}

export function decryptCbcRecords(cipher, blocks, ...named) {
  return recorded("decryptCbcRecords", "internal_decrypt_cbc_records", cipher, blocks, named);
}

function recorded(name, call, cipher, blocks, named) {
  const form = `${name}(cipher, blocks, { vectors, counts })`;
  const [vectors, counts] = afterData(form, named, ["vectors", "counts"]);
  const sizes = numbersOf(counts, "counts");
  const starts = listOf(vectors, BLOCK_SIZE, VectorLength, "vectors");
  const given = listOf(blocks, BLOCK_SIZE, BlockLength, "blocks");
  if (starts.length / BLOCK_SIZE !== sizes.length) throw new CountMismatch("the numbers of vectors and counts differ");
  return inside((memory) => {
    const { kind, context } = memory.state(cipher, Cipher);
    const [at, count] = memory.list(given, BLOCK_SIZE);
    const laid = [...contextAt(kind, memory.put(context)), ...memory.list(starts, BLOCK_SIZE)];
    const length = BigInt(given.length);
    if (memory.ask(call, ...laid, memory.words(sizes), BigInt(sizes.length), at, count, length) !== OK) {
      throw new CountMismatch("the counts do not add up to the number of blocks");
    }
    return memory.taken(at, given.length);
  });
}

/** The values of a column that are there, as their bytes, in which of its rows they stand, and how many rows it has. */
function columnOf(values, take) {
  if (typeof values !== "object" || typeof values?.[Symbol.iterator] !== "function" || typedArrayName.call(values) !== undefined) {
    throw new TypeError("a column: an array with a value for each row is needed");
  }
  const rows = [...values];
  const places = Array.from(rows.keys()).filter((place) => rows[place] !== null && rows[place] !== undefined);
  return { places, rows: rows.length, values: places.map((place) => take(rows[place])) };
}

const valuesOf = (values) => columnOf(values, (value) => bytesOf(value, "a value"));

const totalOf = (values) => values.reduce((sum, { length }) => sum + length, 0);

/** Where values are laid down, one after the other, with how many bytes they have, and their lengths. */
function columnAt(memory, values) {
  const total = totalOf(values);
  const at = memory.allocate(total);
  let next = at;
  for (const value of values) {
    memory.lay(next, value);
    next += BigInt(value.length);
  }
  return [at, BigInt(total), memory.words(values.map(({ length }) => length)), BigInt(values.length)];
}

/** Copies of what stands one after the other, from each of these places as many bytes as its length says. */
function cut(memory, at, starts, lengths) {
  return lengths.map((length, place) => memory.taken(at + BigInt(starts[place]), length));
}

/** Where each of elements of these lengths begins, if they stand one after the other. */
function startsOf(lengths) {
  let next = 0;
  return lengths.map((length) => (next += length) - length);
}

/** Numbers of 64 bits that a call wrote. */
const numbersAt = (memory, at, count) => Array.from({ length: count }, (_, place) => memory.word(at + BigInt(8 * place)));

/** The answers in the rows of their values, and null in the others. */
function spread({ places, rows }, answers) {
  const all = new Array(rows).fill(null);
  places.forEach((place, at) => (all[place] = answers[at]));
  return all;
}

function errorsOf(errors) {
  if (errors === "throw" || errors === "null") return errors;
  throw new TypeError('errors: "throw" or "null" is needed');
}

/** The texts in the rows of their values. If some could not be read, that is thrown, or null stands in their rows. */
function told(column, found, faults, errors) {
  const answer = spread(column, found);
  if (faults.size === 0 || errors === "null") return answer;
  const [place, why] = faults.entries().next().value;
  const text = `${faults.size} of ${column.rows} values can't be read, the first at place ${place}: ${why.message}`;
  throw Object.assign(new UnreadableValues(text), { faults, texts: answer });
}

/** The error of a value's status, with its own sentence if it has one. */
function valueFaultOf(status, sentences) {
  const Fault = FAULTS.get(status);
  return sentences.has(status) ? new Fault(sentences.get(status)) : faultOf(status);
}

/** The texts of a column, by a call. `lay` gives what it takes before the values. */
function readColumn(call, lay, column, errors, sentences = new Map()) {
  const { values, places } = column;
  const count = values.length;
  return inside((memory) => {
    const laid = [...lay(memory), ...columnAt(memory, values)];
    const total = totalOf(values);
    const [texts, lengths, statuses] = [total, 8 * count, 4 * count].map((size) => memory.allocate(size));
    const buffers = [texts, BigInt(total), lengths, BigInt(count), statuses, BigInt(count)];
    const status = memory.ask(call, ...laid, ...buffers);
    if (status !== VALUES) check(status);
    const found = cut(memory, texts, startsOf(values.map(({ length }) => length)), numbersAt(memory, lengths, count));
    const said = new DataView(memory.taken(statuses, 4 * count).buffer);
    const faults = new Map();
    places.forEach((place, at) => {
      const reason = said.getInt32(4 * at, true);
      if (reason === OK) return;
      faults.set(place, valueFaultOf(reason, sentences));
      found[at] = null;
    });
    return told(column, found, faults, errors);
  });
}

/** The bytes of a name, by which a call knows an algorithm. */
function nameOf(name, what) {
  if (typeof name !== "string") throw new TypeError(`${what}: a string is needed`);
  return textOf(name, what);
}

export function mysqlDecryptValues(password, values, options = {}, ...more) {
  refuseMore(more);
  const errors = errorsOf(optionsOf(options, "errors").errors ?? "throw");
  const column = valuesOf(values);
  const secret = bytesOf(password, "a password");
  return readColumn("internal_mysql_decrypt_values", (memory) => memory.list(secret), column, errors);
}

/** What calls of pgcrypto take first. */
function pgcryptoOf(cipher, key, iv = new Uint8Array()) {
  const bytes = [nameOf(cipher, "a cipher of pgcrypto"), bytesOf(key, "a key"), bytesOf(iv, "an initialization vector")];
  return (memory) => bytes.flatMap((list) => memory.list(list));
}

export function pgcryptoDecryptValues(cipher, key, values, options = {}, ...more) {
  refuseMore(more);
  const { iv, errors = "throw" } = optionsOf(options, "iv", "errors");
  const [wanted, column] = [errorsOf(errors), valuesOf(values)];
  return readColumn("internal_pgcrypto_decrypt_values", pgcryptoOf(cipher, key, iv), column, wanted);
}

// The algorithms of Jasypt, the first of which it takes if it is told nothing, before version 3.
const JASYPT = ["PBEWithMD5AndDES", "PBEWithMD5AndTripleDES", "PBEWithSHA1AndDESede"];
const [JASYPT_ALGORITHM] = JASYPT;
const JASYPT_ITERATIONS = 1000;

/** What calls of Jasypt take first, of a password that is read when the column is. */
function jasyptOf(algorithm, iterations) {
  if (typeof algorithm !== "string") throw new TypeError("an algorithm: a string is needed");
  if (!JASYPT.includes(algorithm)) throw faultOf(ALGORITHM);
  const count = iterationsOf(iterations);
  if (count >= TOO_MANY_ITERATIONS) throw faultOf(ITERATIONS);
  const name = nameOf(algorithm, "an algorithm");
  return (password) => {
    const secret = bytesOf(password, "a password");
    return (memory) => [...memory.list(name), count, ...memory.list(secret)];
  };
}

// The sentences of strings, if those of the statuses are of other bytes too.
const OF_A_STRING = new Map([
  [SALT_LENGTH, "the value ends within the salt"],
  [BLOCKS, "what is encrypted is not whole blocks of 8 bytes"],
]);

export function jasyptDecryptValues(password, values, options = {}, ...more) {
  refuseMore(more);
  const named = optionsOf(options, "algorithm", "iterations", "errors");
  const { algorithm = JASYPT_ALGORITHM, iterations = JASYPT_ITERATIONS, errors = "throw" } = named;
  const layBy = jasyptOf(algorithm, iterations);
  const wanted = errorsOf(errors);
  const column = columnOf(values, (value) => textOf(value, "a string of Jasypt"));
  return readColumn("internal_jasypt_decrypt_values", layBy(password), column, wanted, OF_A_STRING);
}

/** Random bytes, of which the source gives at most 65,536 at a time. */
function randomBytes(size) {
  const bytes = new Uint8Array(size);
  for (let at = 0; at < size; at += 65536) crypto.getRandomValues(bytes.subarray(at, at + 65536));
  return bytes;
}

/** The strings of texts, each from its salt. `lay` gives what the call takes before these. */
function stringsOf(lay, salts, texts) {
  const needed = BLOCK_SIZE * texts.length;
  const grains = salts === undefined ? randomBytes(needed) : bytesOf(salts, "salts");
  if (grains.length !== needed) {
    throw new SaltLength(`salts of Jasypt have ${BLOCK_SIZE} bytes for each text, ${needed} together, not ${grains.length}`);
  }
  const sizes = texts.map(({ length }) => Math.ceil((Math.floor(length / 8 + 2) * 8) / 3) * 4);
  const total = sizes.reduce((sum, size) => sum + size, 0);
  return inside((memory) => {
    const [at, length, lengths, count] = columnAt(memory, texts);
    const laid = [...lay(memory), ...memory.list(grains, BLOCK_SIZE), at, length, lengths, count];
    const values = memory.allocate(total);
    memory.call("internal_jasypt_encrypt_values", ...laid, values, BigInt(total));
    return cut(memory, values, startsOf(sizes), sizes).map(charactersOf);
  });
}

export function jasyptEncryptValues(password, texts, options = {}, ...more) {
  refuseMore(more);
  const named = optionsOf(options, "algorithm", "iterations", "salts");
  const { algorithm = JASYPT_ALGORITHM, iterations = JASYPT_ITERATIONS, salts } = named;
  const layBy = jasyptOf(algorithm, iterations);
  const column = columnOf(texts, (text) => bytesOf(text, "a text"));
  return spread(column, stringsOf(layBy(password), salts, column.values));
}

export function jasyptEncrypt(password, text, options = {}, ...more) {
  refuseMore(more);
  const named = optionsOf(options, "algorithm", "iterations", "salt");
  const { algorithm = JASYPT_ALGORITHM, iterations = JASYPT_ITERATIONS, salt } = named;
  return stringsOf(jasyptOf(algorithm, iterations)(password), salt, [bytesOf(text, "a text")])[0];
}

// The lengths of key and vector together.
const PBE_LENGTHS = new Map([[KEY_LENGTH, ": 16, 24 or 32 bytes, as the algorithm has it"]]);

export function pbeKey(algorithm, password, salt, iterations, length, ...more) {
  refuseMore(more);
  const [name, count, size] = [nameOf(algorithm, "an algorithm"), iterationsOf(iterations), derivedLengthOf(length)];
  const [secret, grains] = [bytesOf(password, "a password"), bytesOf(salt, "a salt")];
  return inside((memory) => {
    const laid = [...memory.list(name), count, ...memory.list(secret), ...memory.list(grains)];
    const at = memory.allocate(size);
    const status = memory.ask("pbe_key", ...laid, at, BigInt(size));
    if (status === SALT_LENGTH) throw new SaltLength(`by this algorithm a salt has 8 bytes, not ${grains.length}`);
    check(status, PBE_LENGTHS);
    return memory.taken(at, size);
  });
}

/** The kind of a class of MACs, with the number of its padding method. */
function macsOf(Class, padding) {
  const kind = kindOf(Class, Mac, "the first argument");
  if (kind.algorithm === CMAC) {
    if (padding !== null) throw new TypeError("the padding method: CMAC takes none, so give null");
    return { ...kind, method: CMAC_PADDING };
  }
  const method = paddingOf(padding);
  if (method === 0) throw faultOf(PADDING_METHOD);
  return { ...kind, method };
}

/** The tags of messages that stand one after the other, by a call. `lay` gives what it takes of keys. */
function tagsOf(call, { algorithm, method }, lay, lengths, bytes) {
  return inside((memory) => {
    const tags = memory.allocate(TAG_SIZE * lengths.length);
    let next = Number(memory.put(bytes));
    const pairs = [];
    for (const length of lengths) {
      pairs.push(next, length);
      next += length;
    }
    const count = BigInt(lengths.length);
    memory.call(call, algorithm, method, ...lay(memory), memory.words(pairs), count, tags, count);
    return memory.taken(tags, TAG_SIZE * lengths.length);
  });
}

/** The bytes of messages of these lengths, which stand one after the other. */
function messagesOf(messages, lengths) {
  const bytes = bytesOf(messages, "messages");
  if (lengths.reduce((sum, length) => sum + length, 0) === bytes.length) return bytes;
  throw new CountMismatch("the lengths do not add up to the messages");
}

export function macs(mac, key, padding, lengths, messages, ...more) {
  refuseMore(more);
  const kind = macsOf(mac, padding);
  const numbers = numbersOf(lengths, "lengths");
  const keyBytes = keyOf(key, kind.keySize);
  const bytes = messagesOf(messages, numbers);
  return tagsOf("internal_macs", kind, (memory) => memory.list(keyBytes), numbers, bytes);
}

export function macsEach(mac, keys, padding, lengths, messages, ...more) {
  refuseMore(more);
  const kind = macsOf(mac, padding);
  const numbers = numbersOf(lengths, "lengths");
  const keyBytes = listOf(keys, kind.keySize, KeyLength, "keys");
  const bytes = messagesOf(messages, numbers);
  if (keyBytes.length / kind.keySize !== numbers.length) throw new CountMismatch("the numbers of keys and messages differ");
  const lay = (memory) => [BigInt(kind.keySize), ...memory.list(keyBytes)];
  return tagsOf("internal_macs_each", kind, lay, numbers, bytes);
}

export function wrongTags(tags, expected, ...more) {
  refuseMore(more);
  const [given, wanted] = [tags, expected].map((list) => listOf(list, TAG_SIZE, CountMismatch, "tags"));
  if (given.length !== wanted.length) throw new CountMismatch("the numbers of tags and expected tags differ");
  const count = given.length / TAG_SIZE;
  const right = inside((memory) => {
    const at = memory.allocate(count);
    memory.call("internal_compare_tags", ...memory.list(given, 8), ...memory.list(wanted, 8), at, BigInt(count));
    return memory.taken(at, count);
  });
  return Array.from(right.keys()).filter((place) => right[place] === 0);
}
