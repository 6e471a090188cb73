// What each call of cukvashe_des.mjs does, with its errors and types. Lengths are in bytes. Besides the errors that are
// named, a wrong type, an option of another name and an argument too many are a TypeError. Before `load` has ended,
// isSupported alone answers: other calls throw NotLoaded, or the error of an argument.

/** The version of the library. */
export const version: string;

/** The bytes of a block: 8. */
export const BLOCK_SIZE: 8;

/** The bytes of a whole tag: 8. */
export const TAG_SIZE: 8;

/** Whether this engine has WebAssembly, without which `load` throws NotSupported. */
export function isSupported(): boolean;

/**
 * Loads the module beside cukvashe_des.mjs: cukvashe_des.wasm, or if the engine has no 64-bit memory for it
 * cukvashe_des_32.wasm; or the bytes of one of them. Await it before any other call. NotSupported; ModuleMismatch,
 * if the bytes are not those that cukvashe_des.mjs was built with. If `crypto.subtle` is missing, as on pages by
 * http, they are not compared.
 */
export function load(module?: Uint8Array | ArrayBuffer): Promise<void>;

/** Digits, one a character or a byte. A number is refused: it has no zeros at its beginning. */
export type Digits = string | Uint8Array;

// ---- Errors. No text of one tells a value that was given, only lengths

/**
 * What every error of the library is; `name` is that of its class. `message` has the sentence below, or says more:
 * which length a call takes, and which it was given.
 */
export class CukvasheError extends Error {}
/** A call came before `load` had ended. */
export class NotLoaded extends CukvasheError {}
/** The engine has no WebAssembly, or no 64-bit memory for the bytes that were given. */
export class NotSupported extends CukvasheError {}
/** The module is not one that cukvashe_des.mjs was built with. */
export class ModuleMismatch extends CukvasheError {}
/** An initialization vector, or a counter block, does not have 8 bytes. */
export class VectorLength extends CukvasheError {}
/** A segment of CFB does not have 1 bit, or 8, 16, 24, 32, 40, 48, 56 or 64. */
export class SegmentSize extends CukvasheError {}
/** A position in a stream is not 0 to 2^67 - 1. */
export class Position extends CukvasheError {}
/** A stream of CFB has encrypted, and is to decrypt, or the other way round. */
export class Direction extends CukvasheError {}
/** A key serial number does not have ten bytes. */
export class SerialLength extends CukvasheError {}
/** There are not ten fill digits. */
export class FillLength extends CukvasheError {}
/** The weak key test refuses the key that components make. */
export class WeakKey extends CukvasheError {}
/** A terminal has no key for a next transaction. */
export class NoSerial extends CukvasheError {}
/** The state of a terminal does not have 346 bytes. */
export class StateLength extends CukvasheError {}
/**
 * Some values of a column can't be read: faults has the error of each by its place, from 0, and texts the texts of the
 * others, with null in the places of those.
 */
export class UnreadableValues extends CukvasheError {
  readonly faults: Map<number, CukvasheError>;
  readonly texts: (Uint8Array | null)[];
}
/**
 * The cipher, MAC or terminal was closed, so that its key is gone; or it, or a decimalization table, is of before a
 * call of the module that did not end, as when the engine's stack ends within it: make it anew.
 */
export class Closed extends CukvasheError {}
// The errors of the statuses of cukvashe_des.h, with the sentence of each: made of it by bindings/describe.
/** The key does not have a length that the call takes. */
export class KeyLength extends CukvasheError {}
/** The length is not a multiple of 8 bytes. */
export class BlockLength extends CukvasheError {}
/** The padding method is not one that the call takes. */
export class PaddingMethod extends CukvasheError {}
/** The tag is not that of the message. */
export class TagMismatch extends CukvasheError {}
/** The first digit of the PIN block is not that of the format. */
export class Format extends CukvasheError {}
/** The PIN does not have 4 to 12 digits. */
export class PinLength extends CukvasheError {}
/** A character of the PIN is not a digit. */
export class PinDigit extends CukvasheError {}
/** The account number does not have 8 to 19 digits, for a PVV or a CVV 12 to 19. */
export class AccountLength extends CukvasheError {}
/** A character of the account number is not a digit. */
export class AccountDigit extends CukvasheError {}
/** A fill digit is not one that the format allows. */
export class Fill extends CukvasheError {}
/** The expiry date does not have four digits. */
export class ExpiryLength extends CukvasheError {}
/** A character of the expiry date is not a digit. */
export class ExpiryDigit extends CukvasheError {}
/** The service code does not have three digits. */
export class ServiceLength extends CukvasheError {}
/** A character of the service code is not a digit. */
export class ServiceDigit extends CukvasheError {}
/** The data do not end with the padding. */
export class PaddingMismatch extends CukvasheError {}
/** The numbers of elements do not agree: a count, or a sum of counts, and a length. */
export class CountMismatch extends CukvasheError {}
/** The index of the key pair is not 1 to 6. */
export class KeyIndex extends CukvasheError {}
/** The decimalization table does not have sixteen digits. */
export class TableLength extends CukvasheError {}
/** A character of the decimalization table is not a digit. */
export class TableDigit extends CukvasheError {}
/** The decimalization table has fewer than eight different digits. */
export class TableVariety extends CukvasheError {}
/** The PIN is wrong. */
export class WrongPin extends CukvasheError {}
/** There is no translation of PIN blocks from this format, only from 0, 1 and 3. */
export class Formats extends CukvasheError {}
/** Decrypted, the PIN block is not one of its format and account number. */
export class PinBlock extends CukvasheError {}
/** The sequence number does not have two digits. */
export class SequenceLength extends CukvasheError {}
/** A character of the sequence number is not a digit. */
export class SequenceDigit extends CukvasheError {}
/** The issuer's data have more than 8 bytes. */
export class DataLength extends CukvasheError {}
/** The protection key does not have 16 or 24 bytes. */
export class ProtectionKeyLength extends CukvasheError {}
/** The key block is not as long as its header says, longer than 9999 characters, or too long for its buffer. */
export class KeyBlockLength extends CukvasheError {}
/** The version of the key block is not one that the call takes. */
export class KeyBlockVersion extends CukvasheError {}
/** The header does not end with two digits, 0, 1 or 2, and 0, or a field to be written is not letters and digits. */
export class KeyBlockField extends CukvasheError {}
/**
 * The optional blocks can't be read or written: a wrong length, name, content or PB, an end off a multiple of
 * eight, or more than 99.
 */
export class OptionalBlock extends CukvasheError {}
/** The encrypted key data do not have a length that they can have. */
export class KeyDataLength extends CukvasheError {}
/** A character of the encrypted key data or the MAC is not 0 to 9 or A to F. */
export class KeyBlockDigit extends CukvasheError {}
/** The MAC is not that of the key block. */
export class KeyBlockMac extends CukvasheError {}
/** The padding of the key does not have 6, 14 or 22 bytes, or has more than 30 with the key. */
export class PaddingLength extends CukvasheError {}
/** The hash function is not one that the call takes. */
export class HashName extends CukvasheError {}
/** The number of iterations is not 1 to 2^32 - 1. */
export class IterationCount extends CukvasheError {}
/** The bytes do not begin with Salted__. */
export class NotSalted extends CukvasheError {}
/** The bytes end within the salt, or it does not have 0 or 8 bytes. */
export class SaltLength extends CukvasheError {}
/** The wrapped key does not have 24 bytes or more, a multiple of 8 (CMS), or 12 or more, a multiple of 4 (TKW). */
export class WrappedLength extends CukvasheError {}
/** The bytes are no key wrapped under the protection key, or were changed. */
export class WrappedKey extends CukvasheError {}
/** The value is none that MySQL encrypted. */
export class NotEncrypted extends CukvasheError {}
/** The algorithm is not one that the call takes. */
export class AlgorithmName extends CukvasheError {}
/** The value is not Base64. */
export class Base64 extends CukvasheError {}
/** The number is not 0 to 9, or the file has no key of that number. */
export class KeyNumber extends CukvasheError {}
// This ends what bindings/describe made.

// ---- Ciphers and MACs

declare abstract class Keyed {
  /** Forgets the key: the context is wiped. Every later call throws Closed. */
  close(): void;
}

/**
 * A block cipher (FIPS 46-3) under one key, of `keySize` bytes. ECB and CBC take whole blocks of 8 bytes: `pad` and
 * `unpad` make them of other data. KeyLength.
 */
declare abstract class Cipher extends Keyed {
  static readonly blockSize: 8;
  constructor(key: Uint8Array);
  /** The data, each block of 8 bytes encrypted by itself. BlockLength. */
  encryptEcb(data: Uint8Array): Uint8Array;
  /** The data, each block of 8 bytes decrypted by itself. BlockLength. */
  decryptEcb(data: Uint8Array): Uint8Array;
  /**
   * The data, encrypted by cipher block chaining from an initialization vector of 8 bytes. For a record in pieces, the
   * last block of the answer is the vector of the next piece. VectorLength, BlockLength.
   */
  encryptCbc(data: Uint8Array, named: { iv: Uint8Array }): Uint8Array;
  /**
   * The data, decrypted by cipher block chaining from an initialization vector of 8 bytes. Padding is not removed. For a record
   * in pieces, the last block of `data` is the vector of the next piece. VectorLength, BlockLength.
   */
  decryptCbc(data: Uint8Array, named: { iv: Uint8Array }): Uint8Array;
  /**
   * The data, of any length, encrypted by the counter mode from a first counter block of 8 bytes, of which the next ones
   * are counted up as one number. Two texts whose counters meet give their xor away. VectorLength.
   */
  encryptCtr(data: Uint8Array, named: { counter: Uint8Array }): Uint8Array;
  /** The data, decrypted by the counter mode. VectorLength. */
  decryptCtr(data: Uint8Array, named: { counter: Uint8Array }): Uint8Array;
  /**
   * The data, of any length, encrypted by output feedback from an initialization vector of 8 bytes. Two texts from one
   * vector give their xor away. VectorLength.
   */
  encryptOfb(data: Uint8Array, named: { iv: Uint8Array }): Uint8Array;
  /** The data, decrypted by output feedback. VectorLength. */
  decryptOfb(data: Uint8Array, named: { iv: Uint8Array }): Uint8Array;
  /**
   * The data, of any length, encrypted by cipher feedback from an initialization vector of 8 bytes, with segments of
   * `segmentSize` bits: by CFB alone PyCryptodome means 8, `node:crypto` 64. VectorLength, SegmentSize.
   */
  encryptCfb(data: Uint8Array, named: { iv: Uint8Array; segmentSize: Segment }): Uint8Array;
  /** The data, decrypted by cipher feedback with segments of `segmentSize` bits. VectorLength, SegmentSize. */
  decryptCfb(data: Uint8Array, named: { iv: Uint8Array; segmentSize: Segment }): Uint8Array;
}

/** DES, under a key of 8 bytes. */
export class Des extends Cipher {
  static readonly keySize: 8;
}
/** Triple DES: encryption, decryption, encryption, under the two parts of a key of 16 bytes and the first again. */
export class TdesEde2 extends Cipher {
  static readonly keySize: 16;
}
/** Triple DES: encryption, decryption, encryption, under the three parts of a key of 24 bytes. */
export class TdesEde3 extends Cipher {
  static readonly keySize: 24;
}

/** The bits of a segment of CFB. */
export type Segment = 1 | 8 | 16 | 24 | 32 | 40 | 48 | 56 | 64;

/**
 * Data that come in pieces of any length, under a cipher. Wherever they are cut, they become what they become as a
 * whole. A stream that has encrypted does not decrypt, nor the other way round: Direction. It goes on as long as its
 * cipher is not closed; `close` forgets where it is, but not the cipher's key.
 */
declare abstract class Stream extends Keyed {
  /** The bytes that come next, encrypted. */
  encrypt(data: Uint8Array): Uint8Array;
  /** The bytes that come next, decrypted. */
  decrypt(data: Uint8Array): Uint8Array;
  /** A stream that goes on from here by itself. */
  copy(): this;
}

/** The counter mode from a first counter block, as encryptCtr. VectorLength. */
export class Ctr extends Stream {
  constructor(cipher: Cipher, named: { counter: Uint8Array });
  /** Goes on at a byte of the text, from 0 on, of which no byte before it is needed, in either direction. From 2^53 on take a BigInt. Position. */
  seek(position: number | bigint): void;
}
/** Output feedback from an initialization vector, as encryptOfb. VectorLength. */
export class Ofb extends Stream {
  constructor(cipher: Cipher, named: { iv: Uint8Array });
}
/** Cipher feedback from an initialization vector, as encryptCfb. VectorLength, SegmentSize. */
export class Cfb extends Stream {
  constructor(cipher: Cipher, named: { iv: Uint8Array; segmentSize: Segment });
  /**
   * The data, of which `bits` bits, from the highest of the first byte on, are encrypted, with segments of 1 bit. The
   * others stay. SegmentSize, DataLength.
   */
  encryptBits(data: Uint8Array, bits: number): Uint8Array;
  /** The data, of which `bits` bits are decrypted. SegmentSize, DataLength. */
  decryptBits(data: Uint8Array, bits: number): Uint8Array;
}

/** A message authentication code of a message that comes in pieces. */
declare abstract class Mac extends Keyed {
  static readonly digestSize: 8;
  /** Adds bytes to the message. */
  update(data: Uint8Array): this;
  /** The tag of the message so far, 8 bytes; the message may go on. To check a tag call verify. */
  digest(): Uint8Array;
  /** The tag as a string of 16 hexadecimal digits. */
  digest(encoding: "hex"): string;
  /**
   * True for the whole tag of the message so far, 8 bytes; TagMismatch is thrown for anything else, so there is no
   * answer false. verifyTruncatedLeft takes cut tags; in C, verify takes both.
   */
  verify(tag: Uint8Array): true;
  /**
   * True for the first 4 to 8 bytes of the tag; TagMismatch is thrown for anything else. Of 4 bytes one guess in 2^32
   * is right: test the length too if somebody else chose it.
   */
  verifyTruncatedLeft(tag: Uint8Array): true;
  /** A MAC that goes on from here by itself. */
  copy(): this;
}

/** A MAC with a padding method of ISO/IEC 9797-1: 1, zeros, or 2, a one bit and zeros. KeyLength, PaddingMethod. */
declare abstract class PaddedMac extends Mac {
  constructor(key: Uint8Array, padding: 1 | 2, data?: Uint8Array);
}

/** CMAC (NIST SP 800-38B), which needs no padding method. KeyLength. */
declare abstract class Cmac extends Mac {
  constructor(key: Uint8Array, data?: Uint8Array);
}

/** CBC-MAC over DES, under a key of 8 bytes. It is safe only if every message has one length. */
export class CbcMacDes extends PaddedMac {
  static readonly keySize: 8;
}
/** CBC-MAC over triple DES, under a key of 16 bytes. It is safe only if every message has one length. */
export class CbcMacTdesEde2 extends PaddedMac {
  static readonly keySize: 16;
}
/** CBC-MAC over triple DES, under a key of 24 bytes. It is safe only if every message has one length. */
export class CbcMacTdesEde3 extends PaddedMac {
  static readonly keySize: 24;
}
/** The retail MAC over DES (algorithm 3 of ISO/IEC 9797-1), under a key of 16 bytes, two keys. */
export class RetailMacDes extends PaddedMac {
  static readonly keySize: 16;
}
/** CMAC over triple DES, under a key of 16 bytes. */
export class CmacTdesEde2 extends Cmac {
  static readonly keySize: 16;
}
/** CMAC over triple DES, under a key of 24 bytes. */
export class CmacTdesEde3 extends Cmac {
  static readonly keySize: 24;
}

/** A class of ciphers, such as TdesEde2, that a call takes beside keys. */
export type CipherClass = typeof Des | typeof TdesEde2 | typeof TdesEde3;
/** A class of MACs with a padding method. */
export type PaddedMacClass = typeof CbcMacDes | typeof CbcMacTdesEde2 | typeof CbcMacTdesEde3 | typeof RetailMacDes;
/** A class of MACs without one. */
export type CmacClass = typeof CmacTdesEde2 | typeof CmacTdesEde3;

// ---- Padding

/**
 * The data with 1 to 8 bytes after them that make whole blocks: by "pkcs7" (RFC 5652, section 6.3) each the number of
 * these bytes, by "iso7816" (ISO/IEC 7816-4) 80 in hexadecimal digits and then zeros. PaddingMethod.
 */
export function pad(data: Uint8Array, method: "pkcs7" | "iso7816"): Uint8Array;
/**
 * The data before the padding. PaddingMethod, BlockLength; PaddingMismatch if they do not end with it: an attacker
 * who sends you data and learns which throw it, by a message or by the time taken, can decrypt. Verify a MAC first.
 */
export function unpad(data: Uint8Array, method: "pkcs7" | "iso7816"): Uint8Array;

// ---- Keys

/**
 * Whether a key of 8, 16 or 24 bytes is weak: a part of it has few different round keys, or two parts are one key.
 * KeyLength.
 */
export function isWeakKey(key: Uint8Array): boolean;
/** The key of 8, 16 or 24 bytes with its parity bits, the lowest of each byte, set to odd parity. KeyLength. */
export function withOddParity(key: Uint8Array): Uint8Array;
/**
 * Whether two keys of one length, 8, 16 or 24 bytes, agree in all but their parity bits, and so are one key. KeyLength.
 */
export function equalButParity(first: Uint8Array, second: Uint8Array): boolean;
/**
 * The check value (KCV) of a key, three bytes: the first of the block of zeros encrypted. `cipher` is a class, as
 * TdesEde2. KeyLength.
 */
export function checkValue(cipher: CipherClass, key: Uint8Array): Uint8Array;
/** The key that two or more components of 8, 16 or 24 bytes make: their xor, with odd parity. KeyLength, WeakKey. */
export function combine(first: Uint8Array, second: Uint8Array, ...others: Uint8Array[]): Uint8Array;

// ---- Keys of a transaction: DUKPT with triple DES (ANSI X9.24-1:2009). Keys have 16 bytes, key serial numbers ten

/** The next key serial number with at most ten one bits in its counter, or null if there is none. SerialLength. */
export function dukptNextSerial(serial: Uint8Array): Uint8Array | null;
/**
 * Whether a transaction has this key serial number: its counter is not 0 and has at most ten one bits. SerialLength.
 */
export function dukptIsUsable(serial: Uint8Array): boolean;

/**
 * The terminal's side of DUKPT: the keys of its transactions to come, made of the initial key and any of its key serial
 * numbers, whose counter plays no part. KeyLength, SerialLength.
 */
export class DukptTerminal extends Keyed {
  constructor(initial: Uint8Array, serial: Uint8Array);
  /** The terminal of a state. StateLength. */
  static fromState(state: Uint8Array): DukptTerminal;
  /**
   * The key serial number and the key of the next transaction, that of dukptTransactionKey, which the terminal then
   * forgets. Store `state()` before you use the key, or a key is used twice. NoSerial after the last transaction, the
   * 1,048,575th, and of a state without future keys, as one of zeros.
   */
  nextKey(): { serial: Uint8Array; key: Uint8Array };
  /**
   * The state, 346 bytes, from which `fromState` goes on. It is secret: it has the keys of all transactions to come.
   */
  state(): Uint8Array;
}

// ---- PIN blocks (ISO 9564-1), 8 bytes. A PIN has 4 to 12 digits, an account number 8 to 19 with its check digit

/** The PIN block of format 0. It is not encrypted. PinLength, PinDigit, AccountLength, AccountDigit. */
export function pinEncode0(pin: Digits, account: Digits): Uint8Array;
/**
 * The PIN block of format 1. `transaction` is ten digits, bytes from 0 to 15, of which it uses the first ones that
 * fit. PinLength, PinDigit, FillLength, Fill.
 */
export function pinEncode1(pin: Digits, transaction: Uint8Array): Uint8Array;
/** The PIN block of format 2, which goes to a card in clear. PinLength, PinDigit. */
export function pinEncode2(pin: Digits): Uint8Array;
/**
 * The PIN block of format 3. `fill` is ten digits, random bytes from 10 to 15, of which it uses the first ones that
 * fit. PinLength, PinDigit, AccountLength, AccountDigit, FillLength, Fill.
 */
export function pinEncode3(pin: Digits, account: Digits, fill: Uint8Array): Uint8Array;
/**
 * The PIN of a block of format 0. The error reveals something of the PIN: show it to nobody. BlockLength, Format,
 * PinLength if the second digit is not the length of a PIN, PinDigit, Fill, AccountLength, AccountDigit.
 */
export function pinDecode0(block: Uint8Array, account: Digits): string;
/** The PIN of a block of format 1. BlockLength, Format, PinLength, PinDigit. */
export function pinDecode1(block: Uint8Array): string;
/** The PIN of a block of format 2. BlockLength, Format, PinLength, PinDigit, Fill. */
export function pinDecode2(block: Uint8Array): string;
/** The PIN of a block of format 3. Errors as of pinDecode0. */
export function pinDecode3(block: Uint8Array, account: Digits): string;
/** The keys of a translation, of 8, 16 or 24 bytes, by name. */
export interface TranslationKeys {
  incomingKey: Uint8Array;
  outgoingKey: Uint8Array;
}
/**
 * A block of format 0, 1 or 3 under the incoming key as the block of format 0 of its PIN under the outgoing key. The
 * PIN does not come out. The account number is that of both blocks. KeyLength, Formats, AccountLength, AccountDigit,
 * BlockLength; whatever else is wrong with the block is PinBlock.
 */
export function pinTranslateTo0(
  incomingFormat: 0 | 1 | 3, account: Digits, block: Uint8Array, keys: TranslationKeys,
): Uint8Array;
/** A block of format 1 under another key; its transaction digits stay. KeyLength, BlockLength, PinBlock. */
export function pinTranslateTo1(block: Uint8Array, keys: TranslationKeys): Uint8Array;
/** As pinTranslateTo0, to a block of format 3, with ten fill digits as of pinEncode3. FillLength and Fill too. */
export function pinTranslateTo3(
  incomingFormat: 0 | 1 | 3, account: Digits, fill: Uint8Array, block: Uint8Array, keys: TranslationKeys,
): Uint8Array;

// ---- PIN verification

/**
 * The PIN verification value, four digits, under a key pair of 16 bytes with an index from 1 to 6, of an account number
 * of 12 to 19 digits and the first four digits of a PIN. KeyLength, KeyIndex, AccountLength, AccountDigit, PinLength,
 * PinDigit.
 */
export function pvv(key: Uint8Array, account: Digits, index: number, pin: Digits): string;
/**
 * True for the PIN whose PIN verification value this is; WrongPin is thrown for any other, so there is no answer false.
 * Count these: unlimited guesses find the PIN. Else errors as of pvv.
 */
export function pvvVerify(key: Uint8Array, account: Digits, index: number, pin: Digits, value: Digits): true;

/**
 * A decimalization table of sixteen decimal digits, those that stand for 0 to 15 in this order. An attacker who chooses
 * the table finds PINs out. TableLength, TableDigit; TableVariety for fewer than eight different digits.
 */
export class DecimalTable {
  constructor(digits: Digits);
  /** A table of any variety, for old systems that have one. TableLength, TableDigit. */
  static ofAnyVariety(digits: Digits): DecimalTable;
}
/**
 * The natural PIN of 4 to 12 digits (IBM 3624): the first digits of the validation data, 8 bytes, encrypted under a key
 * of 8, 16 or 24 bytes, each by the decimalization table. KeyLength, BlockLength, PinLength.
 */
export function naturalPin(key: Uint8Array, table: DecimalTable, validation: Uint8Array, length: number): string;
/**
 * The offset of a PIN: digit by digit, modulo ten, the PIN less the natural PIN. KeyLength, BlockLength, PinLength,
 * PinDigit.
 */
export function pinOffset(key: Uint8Array, table: DecimalTable, validation: Uint8Array, pin: Digits): string;
/**
 * True for the PIN whose offset this is; WrongPin is thrown for any other. Count these. Else errors as of pinOffset.
 */
export function pinOffsetVerify(
  key: Uint8Array, table: DecimalTable, validation: Uint8Array, pin: Digits, offset: Digits,
): true;

// ---- Check values of keys of any length, keys of a transaction (DUKPT), card verification values, and card cryptograms
// (EMV 4.3, Book 2), the issuer's side. Other keys have 16 bytes, key serial numbers ten

// Calls like those of cukvashe_des.h: made of it by bindings/describe.
/**
 * The check value of a key or component, by its length: by DES of 8 bytes, by triple DES (EDE) of 16 or 24.
 * KeyLength.
 */
export function keyCheckValue(key: Uint8Array): Uint8Array;
/**
 * The first two bytes of the check value of a key or component of 8, 16 or 24 bytes, which some systems show.
 * KeyLength.
 */
export function shortKeyCheckValue(key: Uint8Array): Uint8Array;
/**
 * The initial key (IK, IPEK) of a terminal, from the base derivation key (BDK) and any of the terminal's key serial
 * numbers (KSN), whose counter plays no part. KeyLength, SerialLength.
 */
export function dukptInitialKey(base: Uint8Array, serial: Uint8Array): Uint8Array;
/**
 * The key of a transaction, which encrypts nothing itself, from the terminal's initial key (IK, IPEK), not the base
 * derivation key (BDK), and the transaction's key serial number (KSN). It takes every counter: ask first whether a
 * transaction has this one. KeyLength, SerialLength.
 */
export function dukptTransactionKey(initial: Uint8Array, serial: Uint8Array): Uint8Array;
/** The key that encrypts PIN blocks, from the transaction's key. KeyLength. */
export function dukptPinKey(transaction: Uint8Array): Uint8Array;
/** The key that authenticates the request, or the response, from the transaction's key. KeyLength. */
export function dukptMacKey(transaction: Uint8Array, isResponse?: boolean): Uint8Array;
/** The key that encrypts the data of the request, or of the response, from the transaction's key. KeyLength. */
export function dukptDataKey(transaction: Uint8Array, isResponse?: boolean): Uint8Array;
/**
 * The key that encrypts the data, made without the last step: some terminals take it. It reveals the transaction's
 * other keys. KeyLength.
 */
export function dukptDataVariant(transaction: Uint8Array, isResponse?: boolean): Uint8Array;
/**
 * The card verification value (CVV), three ASCII digits, under a key pair of 16 bytes, of an account number (PAN)
 * of 12 to 19 digits, an expiry date of four, in the order that the issuer takes, and a service code of three.
 * KeyLength, AccountLength, AccountDigit, ExpiryLength, ExpiryDigit, ServiceLength, ServiceDigit.
 */
export function cvv(key: Uint8Array, account: Digits, expiry: Digits, service: Digits): string;
/**
 * The key of a card (A1.4.1, option A), with odd parity, from the issuer's master key (IMK), an account number
 * (PAN) of 8 to 19 digits and a sequence number (PSN) of two, `00` if the card has none. KeyLength, AccountLength,
 * AccountDigit, SequenceLength, SequenceDigit.
 */
export function emvCardKey(issuer: Uint8Array, account: Digits, sequence: Digits): Uint8Array;
/**
 * The key of a card by option B (A1.4.2), which differs if the account number (PAN) has more than sixteen digits:
 * use it if the card scheme asks for it. KeyLength, AccountLength, AccountDigit, SequenceLength, SequenceDigit.
 */
export function emvCardKeyB(issuer: Uint8Array, account: Digits, sequence: Digits): Uint8Array;
/**
 * The session key for application cryptograms, from the card's key and the application transaction counter (ATC),
 * two bytes. KeyLength, DataLength.
 */
export function emvApplicationKey(card: Uint8Array, counter: Uint8Array): Uint8Array;
/**
 * The session key for other uses (A1.3), from the card's key and eight bytes that are different for each session:
 * for secure messaging the application cryptogram (ARQC). The third of them plays no part. KeyLength, BlockLength.
 */
export function emvSessionKey(card: Uint8Array, block: Uint8Array): Uint8Array;
/**
 * The application cryptogram (ARQC, TC or AAC; 8.1.2), 8 bytes, under a session key, of the data that the card
 * scheme names: the retail MAC with padding method 2. To check one that a card sent call new RetailMacDes(session,
 * 2, data).verify(cryptogram). KeyLength.
 */
export function emvApplicationCryptogram(session: Uint8Array, data: Uint8Array): Uint8Array;
/**
 * The issuer's response (ARPC) by method 1 (8.2.1), 8 bytes, to an application cryptogram (ARQC), with a response
 * code of two ASCII characters. KeyLength, BlockLength, DataLength.
 */
export function emvResponse1(session: Uint8Array, cryptogram: Uint8Array, code: Uint8Array): Uint8Array;
/**
 * The issuer's response (ARPC) by method 2 (8.2.2), 4 bytes, to an application cryptogram (ARQC), with a card
 * status update of four bytes and at most 8 bytes of the issuer's. KeyLength, BlockLength, DataLength.
 */
export function emvResponse2(
  session: Uint8Array, cryptogram: Uint8Array, status: Uint8Array, data?: Uint8Array,
): Uint8Array;
// This ends what bindings/describe made.

// ---- Key blocks (TR-31)

/** The characters of a header: `usage` and `keyVersion` have two, the others one. */
interface KeyBlockHeader {
  version: string;
  usage: string;
  algorithm: string;
  mode: string;
  keyVersion: string;
  /** "E": exportable under a KEK in a form that complies with X9.24; "N": not; "S": sensitive, in other forms too. */
  exportability: string;
}
/**
 * The header and the key of a key block of version A, B or C, under a protection key (KBPK) of 16 or 24 bytes. Look at
 * the header before you use the key. KeyBlockMac if the block was changed, or is under another key.
 * ProtectionKeyLength, KeyBlockLength, KeyBlockVersion, KeyBlockField, OptionalBlock, KeyDataLength, KeyBlockDigit,
 * KeyLength.
 */
export function unwrapKeyBlock(
  protection: Uint8Array, block: string | Uint8Array,
): { header: KeyBlockHeader; key: Uint8Array };
/**
 * The key block of a key of 8, 16 or 24 bytes under a protection key (KBPK) of 16 or 24 bytes, of version B or C.
 * `header` has the fields that unwrapKeyBlock gives; no call compares them with the key's length. `optional` has pairs
 * of a name of two letters or digits and its content, printable ASCII, after which a block PB is added if they do
 * not end at a multiple of eight characters, and taken only as the last, if with it they do: OptionalBlock.
 * `padding` is 6, 14 or 22 random bytes that hide how long the key is: without it they come from the engine.
 * KeyBlockVersion, ProtectionKeyLength, KeyBlockField, KeyLength, PaddingLength, KeyBlockLength.
 */
export function wrapKeyBlock(
  protection: Uint8Array, header: KeyBlockHeader, key: Uint8Array,
  options?: { optional?: Iterable<[name: string, content: string]>; padding?: Uint8Array },
): string;
/**
 * Where the key of a key block may be, read with no key: "0" in storage and exchange, as wrapKeyBlock writes it, "1" in
 * storage only, "2" in exchange only. Nothing of it is authenticated. Errors as of keyBlockHeader.
 */
export function keyBlockContext(block: string | Uint8Array): string;
/**
 * The header of a key block, read with no key. Nothing of it is authenticated. KeyBlockLength, KeyBlockVersion,
 * KeyBlockField, OptionalBlock, KeyDataLength, KeyBlockDigit.
 */
export function keyBlockHeader(block: string | Uint8Array): KeyBlockHeader;
/** The optional blocks of a key block, read with no key. Nothing is authenticated. Errors as of keyBlockHeader. */
export function keyBlockOptionalBlocks(block: string | Uint8Array): [name: string, content: string][];

// ---- Key wraps: the key wrap of CMS (RFC 3217), and TKW (NIST SP 800-38F). Protection keys (KEK) have 16 or 24 bytes

/**
 * A key of 8 bytes or a multiple, wrapped by the key wrap of CMS, which makes it 16 bytes longer. The initialization
 * vector is random, or the one that is given. VectorLength, ProtectionKeyLength, BlockLength.
 */
export function cmsWrapKey(protection: Uint8Array, key: Uint8Array, options?: { iv?: Uint8Array }): Uint8Array;
/**
 * The key that the key wrap of CMS wrapped. Its parity is not tested. ProtectionKeyLength, WrappedLength; WrappedKey if
 * it was changed, or is under another key.
 */
export function cmsUnwrapKey(protection: Uint8Array, wrapped: Uint8Array): Uint8Array;
/**
 * A key of 8 bytes or more, a multiple of 4, wrapped by TKW, which makes it 4 bytes longer. ProtectionKeyLength, KeyLength.
 */
export function tkwWrapKey(protection: Uint8Array, key: Uint8Array): Uint8Array;
/** The key that TKW wrapped. ProtectionKeyLength, WrappedLength; WrappedKey if it was changed, or is under another key. */
export function tkwUnwrapKey(protection: Uint8Array, wrapped: Uint8Array): Uint8Array;

// ---- Columns of old records: what MySQL, MariaDB, pgcrypto and Jasypt encrypted. null is the null of a database

/** A value of a column, or null. */
export type Row<Value = Uint8Array> = Value | null | undefined;
/** What becomes of values that can't be read: UnreadableValues is thrown, or null stands in their places. */
export type Errors = "throw" | "null";
/** An algorithm of Jasypt. */
export type JasyptAlgorithm = "PBEWithMD5AndDES" | "PBEWithMD5AndTripleDES" | "PBEWithSHA1AndDESede";
/** An algorithm of password-based encryption. */
export type PbeAlgorithm = JasyptAlgorithm | "PBEWithSHA1AndDES" | "pbeWithSHAAnd2-KeyTripleDES-CBC";

/**
 * The texts of a column that DES_ENCRYPT of MySQL or MariaDB encrypted under a key string, which is the password here.
 * Values of every key number are taken for its, as the server does. UnreadableValues, whose faults are NotEncrypted and
 * PaddingMismatch. Nothing authenticates values: under a wrong password most are such faults, and the others wrong.
 */
export function mysqlDecryptValues(
  password: Uint8Array, values: Iterable<Row>, options?: { errors?: Errors },
): (Uint8Array | null)[];
/**
 * The texts of a column that `encrypt` or `encrypt_iv` of pgcrypto encrypted. `cipher` is what they were given: "des" or
 * "3des", which are CBC, "des-ecb" or "3des-ecb", and "/pad:none" behind it. As there, a key or vector that is shorter than
 * the cipher's is filled with zeros and a longer one cut: so a key of 16 bytes is no two-key triple DES. AlgorithmName;
 * UnreadableValues, whose faults are BlockLength and PaddingMismatch.
 */
export function pgcryptoDecryptValues(
  cipher: string, key: Uint8Array, values: Iterable<Row>, options?: { iv?: Uint8Array; errors?: Errors },
): (Uint8Array | null)[];
/**
 * The texts of strings that Jasypt encrypted, with or without ENC(..) around. White space around and within a string does
 * not count; one whose pad bits (RFC 4648, 3.5) are not zeros is not Base64. The algorithm is "PBEWithMD5AndDES", its
 * default before version 3, and the iterations are 1,000 if they are left out. AlgorithmName, IterationCount;
 * UnreadableValues, whose faults are Base64, SaltLength, BlockLength and PaddingMismatch.
 */
export function jasyptDecryptValues(
  password: Uint8Array, values: Iterable<Row<string | Uint8Array>>,
  options?: { algorithm?: JasyptAlgorithm; iterations?: number; errors?: Errors },
): (Uint8Array | null)[];
/**
 * The strings of texts, without ENC(..) around. The salts, 8 bytes for each text and none for null, are random, or the ones
 * that are given. SaltLength; AlgorithmName, IterationCount.
 */
export function jasyptEncryptValues(
  password: Uint8Array, texts: Iterable<Row>,
  options?: { algorithm?: JasyptAlgorithm; iterations?: number; salts?: Uint8Array },
): (string | null)[];
/** The string of a text, without ENC(..) around, from a random salt, or one of 8 bytes. SaltLength; as jasyptDecryptValues. */
export function jasyptEncrypt(
  password: Uint8Array, text: Uint8Array,
  options?: { algorithm?: JasyptAlgorithm; iterations?: number; salt?: Uint8Array },
): string;
/**
 * The key, and after it the vector, of password-based encryption: 16 bytes together for DES, 24 for two keys, 32 for three.
 * By Java's own rule, "PBEWithMD5AndTripleDES", the salt has 8 bytes, by the others any number; by PKCS #12 the password is
 * UTF-8. AlgorithmName, KeyLength, IterationCount, SaltLength.
 */
export function pbeKey(
  algorithm: PbeAlgorithm, password: Uint8Array, salt: Uint8Array, iterations: number, length: number,
): Uint8Array;

// ---- Keys from passwords, and what `openssl enc` encrypted under them. Passwords are bytes

/**
 * The key of `length` bytes of a password and a salt by PBKDF2 (RFC 8018) with HMAC. HashName, IterationCount,
 * KeyLength.
 */
export function pbkdf2(
  hashName: "sha1" | "sha256", password: Uint8Array, salt: Uint8Array, iterations: number, length: number,
): Uint8Array;
/**
 * The key, and after it the vector, of `length` bytes together, that OpenSSL's EVP_BytesToKey makes of a password and a
 * salt with one iteration. A password is quick to guess by it: take it to read what others wrote. The password stands
 * before the salt, unlike in EVP_BytesToKey. `salt` has 8 bytes, without Salted__, or none. HashName, SaltLength,
 * KeyLength.
 */
export function bytesToKey(
  hashName: "md5" | "sha1" | "sha256", password: Uint8Array, salt: Uint8Array, length: number,
): Uint8Array;
/**
 * The plaintext of a file that `openssl enc` encrypted under a password: by -des-cbc, -des-ede-cbc or -des3, as
 * `cipher` is the class Des, TdesEde2 or TdesEde3. `data` are the whole file, not Base64 (-a). `hashName` is that of
 * -md, "sha256" if it is left out, "md5" before OpenSSL 1.1.0. `iterations` are those of -iter: 10000 if only -pbkdf2
 * was given, and left out, not 1, if neither was; with them "sha1" or "sha256". A wrong password is PaddingMismatch,
 * but for one in 256, which gives wrong bytes: nothing here authenticates. NotSalted, SaltLength, BlockLength,
 * HashName, IterationCount.
 */
export function openSalted(
  cipher: CipherClass, password: Uint8Array, data: Uint8Array,
  options?: { hashName?: "md5" | "sha1" | "sha256"; iterations?: number },
): Uint8Array;

// ---- Lists: elements stand one after the other, without a gap

/**
 * The blocks, each of 8 bytes encrypted under the key at its place. `cipher` is a class, as TdesEde2. KeyLength,
 * BlockLength; CountMismatch if the numbers of keys and blocks differ.
 */
export function encryptEach(cipher: CipherClass, keys: Uint8Array, blocks: Uint8Array): Uint8Array;
/** The blocks, each decrypted under the key at its place. Errors as of encryptEach. */
export function decryptEach(cipher: CipherClass, keys: Uint8Array, blocks: Uint8Array): Uint8Array;
/** The check values of keys, three bytes for each, as `checkValue` makes them. KeyLength. */
export function checkValues(cipher: CipherClass, keys: Uint8Array): Uint8Array;
/**
 * The keys of transactions, of 16 bytes each, from the base derivation key and key serial numbers of ten bytes: what
 * dukptTransactionKey makes of dukptInitialKey, for each. Such a key encrypts nothing itself: take dukptPinKey,
 * dukptMacKey or dukptDataKey of it. KeyLength, SerialLength.
 */
export function dukptTransactionKeysFromBase(base: Uint8Array, serials: Uint8Array): Uint8Array;
/**
 * Records, each encrypted by cipher block chaining from a vector of its own: record k has `counts[k]` of the blocks,
 * not bytes, one record after the other, and the k-th 8 bytes of `vectors`. `cipher` is one that has a key.
 * VectorLength, BlockLength, CountMismatch.
 */
export function encryptCbcRecords(
  cipher: Cipher, blocks: Uint8Array, named: { vectors: Uint8Array; counts: Iterable<number> },
): Uint8Array;
/** Records, each decrypted by cipher block chaining. Padding is not removed. Arguments and errors as of encryptCbcRecords. */
export function decryptCbcRecords(
  cipher: Cipher, blocks: Uint8Array, named: { vectors: Uint8Array; counts: Iterable<number> },
): Uint8Array;
/**
 * The tags, of 8 bytes each, of messages under one key: message k has `lengths[k]` of the bytes, one after the other.
 * `mac` is a class, as RetailMacDes. KeyLength, PaddingMethod, CountMismatch.
 */
export function macs(
  mac: PaddedMacClass, key: Uint8Array, padding: 1 | 2, lengths: Iterable<number>, messages: Uint8Array,
): Uint8Array;
/** As above, by CMAC, which takes no padding method. */
export function macs(
  mac: CmacClass, key: Uint8Array, padding: null, lengths: Iterable<number>, messages: Uint8Array,
): Uint8Array;
/** The tags of messages, each under the key at its place, as `macs` makes them under one. Errors as of macs. */
export function macsEach(
  mac: PaddedMacClass, keys: Uint8Array, padding: 1 | 2, lengths: Iterable<number>, messages: Uint8Array,
): Uint8Array;
/** As above, by CMAC, which takes no padding method. */
export function macsEach(
  mac: CmacClass, keys: Uint8Array, padding: null, lengths: Iterable<number>, messages: Uint8Array,
): Uint8Array;
/**
 * The places of the tags, of 8 bytes each, that are not the one at their place in `expected`, the tags that `macs` or
 * `macsEach` made. Every byte is compared. Ask `length`: an array without elements, if all are right, is true in an
 * `if`. CountMismatch.
 */
export function wrongTags(tags: Uint8Array, expected: Uint8Array): number[];

// What has no value at run time: types alone.
export type { Cipher, KeyBlockHeader, Mac, Stream };
