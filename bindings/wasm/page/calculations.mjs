// The table of calculations. The page has what stands here, in this order, and nothing that depends on which they are.
import * as library from "../cukvashe_des.mjs";
import { FieldFault, anyBytes, bytes, decimal, digitsOf, lines, tenDigits, utf8, wholeBlocks } from "./fields.mjs";
import { eachLine, iterationsOf, keyBlock, optionalBlocks, shortCode, someBytes } from "./fields.mjs";

const CIPHERS = { 8: library.Des, 16: library.TdesEde2, 24: library.TdesEde3 };
const CIPHER_NAMES = { 8: "DES", 16: "triple DES (EDE) with two keys", 24: "triple DES (EDE) with three keys" };

const cipherOf = (key) => new CIPHERS[key.length](key);
const checkValueOf = (key) => digitsOf(library.keyCheckValue(key));

// Answers: a value to copy, digits of bytes or a text; a key with its check value; and a remark in words.
const value = (label, given) => ({ label, value: typeof given === "string" ? given : digitsOf(given) });
const keyed = (label, key) => ({ label, value: digitsOf(key), checkValue: checkValueOf(key) });
const remark = (label, words) => ({ label, words });

// ---- Fields that several calculations have

const SIZES = [8, 16, 24];
const KEY_HINT = "16, 32 or 48 hexadecimal digits.";
const PAIR_HINT = "32 hexadecimal digits.";

const baseKey = { name: "base", label: "Base derivation key", short: "BDK", hint: PAIR_HINT, read: bytes(16) };
const serial = {
  name: "serial",
  label: "Key serial number",
  short: "KSN",
  hint: "20 hexadecimal digits, as the terminal sends it. Put F before one that has fewer.",
  read: bytes(10),
};
const account = {
  name: "account",
  label: "Account number",
  short: "PAN",
  hint: "The whole number, with its check digit.",
  read: decimal,
};

const format = {
  name: "format",
  label: "Format",
  options: [
    ["0", "Format 0 (ISO-0, ANSI X9.8)"],
    ["1", "Format 1 (ISO-1)"],
    ["2", "Format 2 (ISO-2, for a card)"],
    ["3", "Format 3 (ISO-3)"],
  ],
};
const hasAccount = (texts) => texts.format === "0" || texts.format === "3";
const hasFill = (texts) => texts.format === "1" || texts.format === "3";

/** What a PIN block is encrypted under. */
const pinKeyFields = [
  {
    name: "under",
    label: "Encrypted under",
    options: [
      ["dukpt", "the PIN key of a transaction (DUKPT)"],
      ["key", "a PIN key"],
      ["nothing", "nothing: the block in clear"],
    ],
  },
  { ...baseKey, shown: ({ under }) => under === "dukpt" },
  { ...serial, shown: ({ under }) => under === "dukpt" },
  {
    name: "key",
    label: "PIN key",
    short: "TPK, ZPK",
    hint: KEY_HINT,
    read: bytes(...SIZES),
    shown: ({ under }) => under === "key",
  },
];

/** The PIN key that these fields give, or null. */
function pinKeyOf({ under, base, serial: number, key }) {
  if (under === "nothing") return null;
  if (under === "key") return key;
  return library.dukptPinKey(library.dukptTransactionKey(library.dukptInitialKey(base, number), number));
}

/** Of each MAC the sizes of its keys, and the class for each. */
const MACS = {
  retail: { sizes: [16], 16: library.RetailMacDes },
  cbc: { sizes: SIZES, 8: library.CbcMacDes, 16: library.CbcMacTdesEde2, 24: library.CbcMacTdesEde3 },
  cmac: { sizes: [16, 24], 16: library.CmacTdesEde2, 24: library.CmacTdesEde3 },
};

// ---- Key blocks

/** What the characters of a header stand for (ANSI X9.143). */
const USAGES = [
  ["B0", "base derivation key (BDK)"], ["B1", "initial key of DUKPT"], ["C0", "card verification"], ["D0", "data"],
  ["E0", "EMV: application cryptograms"], ["E1", "EMV: confidentiality of messages"], ["E2", "EMV: integrity of messages"],
  ["K0", "encryption of keys"], ["K1", "protection of key blocks (KBPK)"], ["M1", "MAC, ISO 9797-1 algorithm 1"],
  ["M3", "MAC, ISO 9797-1 algorithm 3"], ["M6", "CMAC"], ["P0", "encryption of PIN blocks"], ["V0", "PIN verification"],
  ["V1", "PIN verification, IBM 3624"], ["V2", "PIN verification, PVV"],
];
const ALGORITHMS = [["T", "triple DES"], ["D", "DES"]];
const MODES = [
  ["E", "encrypt"], ["D", "decrypt"], ["B", "encrypt and decrypt"], ["G", "make MACs"], ["V", "verify"],
  ["C", "make and verify MACs"], ["X", "derive keys"], ["N", "no restriction"],
];
const EXPORTABILITIES = [
  ["E", "exportable in a form that complies with X9.24"], ["N", "not exportable"],
  ["S", "sensitive, exportable in other forms too"],
];
const CONTEXTS = [["0", "storage and exchange"], ["1", "storage only"], ["2", "exchange only"]];
const VERSIONS = [["B", "derived keys"], ["C", "variants of the protection key"], ["A", "variants, deprecated"]];

const coded = (options) => options.map(([code, words]) => [code, `${code}: ${words}`]);
const named = (options, code) => {
  const found = options.find(([it]) => it === code);
  return found === undefined ? `${code}: a code of its own` : `${code}: ${found[1]}`;
};

const protection = {
  name: "protection",
  label: "Protection key",
  short: "KBPK",
  hint: "32 or 48 hexadecimal digits.",
  read: bytes(16, 24),
};

/** Where the key of a block may be, if not in storage and exchange. */
const contextAnswers = (context) => (context === "0" ? [] : [remark("Context of the key", named(CONTEXTS, context))]);

/** What a header says, in words, and the optional blocks. */
const headerAnswers = (block, { version, usage, algorithm, mode, keyVersion, exportability }) => [
  remark("Usage", named(USAGES, usage)),
  remark("Algorithm", named(ALGORITHMS, algorithm)),
  remark("Mode of use", named(MODES, mode)),
  remark("Exportability", named(EXPORTABILITIES, exportability)),
  remark("Version of the block", named(VERSIONS, version)),
  remark("Version of the key", keyVersion === "00" ? "00: none" : keyVersion),
  ...contextAnswers(library.keyBlockContext(block)),
  ...library.keyBlockOptionalBlocks(block).map(([name, content]) => value(`Optional block ${name}`, content)),
];

/** The key of a block, with its check value if it is one of DES or triple DES. */
const keyAnswer = ({ algorithm }, key) =>
  ALGORITHMS.some(([code]) => code === algorithm) ? keyed("Key", key) : value("Key", key);

const NOT_LONG = "The block has another number of characters than it says (characters 2 to 5), or is too short.";

// ---- Old records

/** A text as it is read if it is printable UTF-8 in one line, and else as hexadecimal digits. */
function shownText(bytes) {
  try {
    const text = new TextDecoder("utf-8", { fatal: true, ignoreBOM: true }).decode(bytes);
    return text !== "" && /^[^\p{C}\p{Zl}\p{Zp}]*$/u.test(text) ? text : digitsOf(bytes);
  } catch {
    return digitsOf(bytes);
  }
}

/** What a call says of values, a line each: their texts, or why they can't be read. */
function textAnswers(read) {
  let [texts, faults] = [null, new Map()];
  try {
    texts = read();
  } catch (error) {
    if (!(error instanceof library.UnreadableValues)) throw error;
    ({ texts, faults } = error);
  }
  return texts.map((text, place) => {
    const label = `Text ${place + 1}`;
    if (text === null) return remark(label, faults.get(place).message);
    return text.length === 0 ? remark(label, "empty") : value(label, shownText(text));
  });
}

// ---- What examples have

const BASE = "0123456789ABCDEFFEDCBA9876543210";
const SERIAL = "FFFF9876543210E00001";
const ACCOUNT = "4012345678909";

/**
 * Of each calculation: `id`, which is the page's #id; `title`; `note`; `fields`, of which `read` makes a value of the
 * text; `compute`, which makes answers of the values; `example`, the texts of all fields; `known`, answers to it by
 * their labels, which are computed before the page offers anything; and `faults`, where an error of the library is about
 * another field than its name says, or wants other words. One more calculation is one more entry: the page needs nothing
 * else.
 */
export const calculations = [
  {
    id: "dukpt",
    title: "Transaction keys (DUKPT)",
    note: "The keys of one transaction, as the host derives them: DUKPT with triple DES, ANSI X9.24-1:2009.",
    fields: [
      {
        name: "from",
        label: "You have",
        options: [["base", "the base derivation key (BDK)"], ["initial", "the terminal’s initial key (IPEK, IK)"]],
      },
      { ...baseKey, shown: ({ from }) => from === "base" },
      {
        name: "initial",
        label: "Initial key",
        short: "IPEK, IK",
        hint: PAIR_HINT,
        read: bytes(16),
        shown: ({ from }) => from === "initial",
      },
      serial,
    ],
    example: { from: "base", base: BASE, initial: "", serial: SERIAL },
    // ANSI X9.24-1:2009, A.4.
    known: {
      "PIN key": "042666B49184CF5C68DE9628D0397B36",
      "MAC key, request": "042666B4918430A368DE9628D03984C9",
      "Data key, request": "448D3F076D8304036A55A3D7E0055A78",
      "Transaction key": "042666B49184CFA368DE9628D0397BC9",
      "Initial key (IPEK)": "6AC292FAA1315B4D858AB3A3D7D5933A",
    },
    compute({ from, base, initial: given, serial: number }) {
      const initial = from === "base" ? library.dukptInitialKey(base, number) : given;
      const transaction = library.dukptTransactionKey(initial, number);
      const next = library.dukptNextSerial(number);
      const counter = String(((number[7] & 31) << 16) | (number[8] << 8) | number[9]);
      const unused = ", which no terminal uses: it is 0 or has more than ten one bits";
      return [
        keyed("PIN key", library.dukptPinKey(transaction)),
        keyed("MAC key, request", library.dukptMacKey(transaction)),
        keyed("MAC key, response", library.dukptMacKey(transaction, true)),
        keyed("Data key, request", library.dukptDataKey(transaction)),
        keyed("Data key, response", library.dukptDataKey(transaction, true)),
        keyed("Data variant, request", library.dukptDataVariant(transaction)),
        keyed("Data variant, response", library.dukptDataVariant(transaction, true)),
        keyed("Transaction key", transaction),
        keyed("Initial key (IPEK)", initial),
        remark("Counter", library.dukptIsUsable(number) ? counter : counter + unused),
        next === null ? remark("Next KSN", "none: the counter is used up") : value("Next KSN", next),
      ];
    },
  },
  {
    id: "pin",
    title: "PIN block: make",
    note: "The block of a PIN (ISO 9564-1), and the same encrypted.",
    fields: [
      format,
      { name: "pin", label: "PIN", hint: "4 to 12 digits.", read: decimal },
      { ...account, shown: hasAccount },
      {
        name: "fill",
        label: "Digits to fill with",
        hint: "Ten hexadecimal digits, in format 3 each from A to F. The block takes as many as fit.",
        read: tenDigits,
        shown: hasFill,
        random: (texts) => (texts.format === "3" ? "ABCDEF" : "0123456789ABCDEF"),
      },
      ...pinKeyFields,
    ],
    example: {
      format: "0",
      pin: "1234",
      account: ACCOUNT,
      fill: "ABCDEFABCD",
      under: "dukpt",
      base: BASE,
      serial: SERIAL,
      key: "",
    },
    // ANSI X9.24-1:2009, A.4.
    known: { "Encrypted block": "1B9C1845EB993A7A", "Block in clear": "041274EDCBA9876F" },
    compute(values) {
      const { pin, account: number, fill } = values;
      const encoders = {
        0: () => library.pinEncode0(pin, number),
        1: () => library.pinEncode1(pin, fill),
        2: () => library.pinEncode2(pin),
        3: () => library.pinEncode3(pin, number, fill),
      };
      const block = encoders[values.format]();
      const key = pinKeyOf(values);
      if (key === null) return [value("Block in clear", block)];
      const encrypted = cipherOf(key).encryptEcb(block);
      return [value("Encrypted block", encrypted), value("Block in clear", block), keyed("PIN key", key)];
    },
  },
  {
    id: "unpin",
    title: "PIN block: read",
    note: "The PIN of a block (ISO 9564-1), in clear or encrypted. All sixteen digits are checked.",
    fields: [
      { name: "block", label: "PIN block", hint: "16 hexadecimal digits.", read: bytes(8) },
      format,
      { ...account, shown: hasAccount },
      ...pinKeyFields,
    ],
    example: {
      block: "1B9C1845EB993A7A",
      format: "0",
      account: ACCOUNT,
      under: "dukpt",
      base: BASE,
      serial: SERIAL,
      key: "",
    },
    // ANSI X9.24-1:2009, A.4.
    known: { PIN: "1234", "Block in clear": "041274EDCBA9876F" },
    faults: {
      Format: {
        field: "block",
        words: "In clear the block does not begin with the digit of this format. Are the key and the format right?",
      },
      PinLength: {
        field: "block",
        words: "In clear the second digit of the block is no length of a PIN (4 to C). Is the key right?",
      },
      PinDigit: {
        field: "block",
        words: "A digit of the PIN in this block is above 9. Are the key and the account number right?",
      },
      Fill: {
        field: "block",
        words: "What stands behind the PIN is not what the format has there. Are the key and the account number right?",
      },
    },
    compute(values) {
      const { block: given, account: number } = values;
      const key = pinKeyOf(values);
      const block = key === null ? given : cipherOf(key).decryptEcb(given);
      const answers = key === null ? [] : [value("Block in clear", block), keyed("PIN key", key)];
      const decoders = {
        0: () => library.pinDecode0(block, number),
        1: () => library.pinDecode1(block),
        2: () => library.pinDecode2(block),
        3: () => library.pinDecode3(block, number),
      };
      try {
        return [value("PIN", decoders[values.format]()), ...answers];
      } catch (error) {
        error.answers = answers;
        throw error;
      }
    },
  },
  {
    id: "translate",
    title: "PIN block: translate",
    note: "A PIN block under one key becomes one under another; the PIN does not come out (ISO 9564-1).",
    fields: [
      { name: "block", label: "PIN block", hint: "16 hexadecimal digits, encrypted.", read: bytes(8) },
      {
        name: "from",
        label: "Its format",
        options: [["0", "Format 0 (ISO-0, ANSI X9.8)"], ["1", "Format 1 (ISO-1)"], ["3", "Format 3 (ISO-3)"]],
      },
      { name: "incoming", label: "Its PIN key", short: "TPK, ZPK", hint: KEY_HINT, read: bytes(...SIZES) },
      {
        name: "to",
        label: "New format",
        options: [["0", "Format 0 (ISO-0, ANSI X9.8)"], ["1", "Format 1 (ISO-1)"], ["3", "Format 3 (ISO-3)"]],
      },
      { name: "outgoing", label: "New PIN key", short: "ZPK", hint: KEY_HINT, read: bytes(...SIZES) },
      { ...account, shown: ({ to }) => to !== "1" },
      {
        name: "fill",
        label: "Digits to fill with",
        hint: "Ten hexadecimal digits from A to F. The block takes as many as fit.",
        read: tenDigits,
        shown: ({ to }) => to === "3",
        random: () => "ABCDEF",
      },
    ],
    example: {
      block: "1B9C1845EB993A7A",
      from: "0",
      incoming: "042666B49184CF5C68DE9628D0397B36",
      to: "0",
      outgoing: BASE,
      account: ACCOUNT,
      fill: "",
    },
    // The block in clear, which ANSI X9.24-1:2009 publishes, encrypted by OpenSSL's des-ede.
    known: { "Translated block": "C03D21CDBCB0C58B" },
    faults: {
      PinBlock: {
        field: "block",
        words: "Decrypted, this is no PIN block of its format and account number. Are these and its key right?",
      },
    },
    compute({ block, from, incoming, to, outgoing, account: number, fill }) {
      if (to === "1" && from !== "1") throw new FieldFault("to", "Only a block of format 1 becomes one of format 1.");
      const keys = { incomingKey: incoming, outgoingKey: outgoing };
      const translators = {
        0: () => library.pinTranslateTo0(Number(from), number, block, keys),
        1: () => library.pinTranslateTo1(block, keys),
        3: () => library.pinTranslateTo3(Number(from), number, fill, block, keys),
      };
      return [value("Translated block", translators[to]())];
    },
  },
  {
    id: "pvv",
    title: "PIN verification value (PVV)",
    note: "Four digits by which a host knows a PIN without keeping it (Visa).",
    fields: [
      {
        name: "key",
        label: "PIN verification keys",
        short: "PVK A and B",
        hint: "The pair: 32 hexadecimal digits.",
        read: bytes(16),
      },
      {
        name: "index",
        label: "Index of the pair",
        short: "PVKI",
        options: ["1", "2", "3", "4", "5", "6"].map((digit) => [digit, digit]),
      },
      account,
      { name: "pin", label: "PIN", hint: "The value is of its first four digits.", read: decimal },
    ],
    example: { key: BASE, index: "1", account: "4123456789012345", pin: "1234" },
    // By OpenSSL's des-ede of 5678901234511234.
    known: { "PIN verification value": "1894" },
    compute({ key, index, account: number, pin }) {
      return [value("PIN verification value", library.pvv(key, number, Number(index), pin))];
    },
  },
  {
    id: "offset",
    title: "PIN offset (IBM 3624)",
    note: "The natural PIN of an account, and the offset of a PIN that the customer chose.",
    fields: [
      { name: "key", label: "PIN verification key", short: "PVK", hint: KEY_HINT, read: bytes(...SIZES) },
      {
        name: "validation",
        label: "Validation data",
        hint: "16 hexadecimal digits that the issuer chooses, often of the account number.",
        read: bytes(8),
      },
      { name: "table", label: "Decimalization table", hint: "16 digits, eight different ones at least.", read: decimal },
      { name: "pin", label: "PIN", hint: "4 to 12 digits.", read: decimal },
    ],
    example: { key: BASE, validation: "4123456789012345", table: "0123456789012345", pin: "9519" },
    // By OpenSSL's des-ede of the validation data, whose first digits are A62A; 9519 less 0620 is 9999.
    known: { Offset: "9999", "Natural PIN": "0620" },
    compute({ key, validation, table: digits, pin }) {
      const table = new library.DecimalTable(digits);
      const offset = library.pinOffset(key, table, validation, pin);
      return [value("Offset", offset), value("Natural PIN", library.naturalPin(key, table, validation, pin.length))];
    },
  },
  {
    id: "emv",
    title: "Card cryptogram (ARQC, ARPC)",
    note: "The card’s key, the session key, the cryptogram and the issuer’s response by method 1 (EMV 4.3, Book 2).",
    fields: [
      { name: "issuer", label: "Issuer’s master key", short: "IMK-AC", hint: PAIR_HINT, read: bytes(16) },
      account,
      {
        name: "sequence",
        label: "Sequence number of the account",
        short: "PSN",
        hint: "Two digits; 00 if the card has none.",
        read: decimal,
      },
      {
        name: "option",
        label: "Card’s key by",
        options: [["a", "Option A, which most issuers take"], ["b", "Option B, for more than 16 digits"]],
      },
      { name: "counter", label: "Transaction counter", short: "ATC", hint: "4 hexadecimal digits.", read: bytes(2) },
      {
        name: "data",
        label: "Data of the cryptogram",
        hint: "Hexadecimal digits, as the card scheme joins them, without padding.",
        isLong: true,
        read: anyBytes,
      },
      {
        name: "code",
        label: "Response code",
        short: "ARC",
        hint: "4 hexadecimal digits: 3030 is the text 00, approved.",
        read: bytes(2),
      },
    ],
    example: {
      issuer: BASE,
      account: "99012345678901234",
      sequence: "45",
      option: "a",
      counter: "001C",
      data: "00000000500000000000000000000840000000000008401502200063A5B1F2580000001C06010A03A4A000",
      code: "3030",
    },
    // A published card key; the others are by OpenSSL.
    known: {
      "Application cryptogram (ARQC)": "AC06A6DF7A7D00E8",
      "Response by method 1 (ARPC)": "F94A6571647B89F7",
      "Session key": "38324E73F063EFDD5CA88C322476A45B",
      "Card’s key": "67F8292358083E5EA7AB7FDA58D53B6B",
    },
    compute({ issuer, account: number, sequence, option, counter, data, code }) {
      const cardKey = option === "b" ? library.emvCardKeyB : library.emvCardKey;
      const card = cardKey(issuer, number, sequence);
      const session = library.emvApplicationKey(card, counter);
      const cryptogram = library.emvApplicationCryptogram(session, data);
      return [
        value("Application cryptogram (ARQC)", cryptogram),
        value("Response by method 1 (ARPC)", library.emvResponse1(session, cryptogram, code)),
        keyed("Session key", session),
        keyed("Card’s key", card),
      ];
    },
  },
  {
    id: "mac",
    title: "MAC",
    note: "A message authentication code: the retail MAC and CBC-MAC of ISO/IEC 9797-1, or CMAC.",
    fields: [
      {
        name: "kind",
        label: "Algorithm",
        options: [
          ["retail", "Retail MAC (algorithm 3, ANSI X9.19)"],
          ["cbc", "CBC-MAC (algorithm 1)"],
          ["cmac", "CMAC (NIST SP 800-38B)"],
        ],
      },
      {
        name: "padding",
        label: "Padding",
        options: [["1", "Method 1: zeros"], ["2", "Method 2: a one bit, then zeros"]],
        shown: ({ kind }) => kind !== "cmac",
      },
      {
        name: "key",
        label: "MAC key",
        short: "TAK, ZAK",
        hint: "Hexadecimal digits: 32 for the retail MAC; 16, 32 or 48 for CBC-MAC; 32 or 48 for CMAC.",
        read: (text, { kind }) => bytes(...MACS[kind].sizes)(text),
      },
      { name: "form", label: "The message is", options: [["hex", "hexadecimal digits"], ["text", "text (UTF-8)"]] },
      {
        name: "message",
        label: "Message",
        isLong: true,
        read: (text, { form }) => (form === "text" ? utf8(text) : anyBytes(text)),
      },
    ],
    example: { kind: "retail", padding: "1", key: BASE, form: "text", message: "Now is the time for it" },
    // ISO/IEC 9797-1, annex B.
    known: { MAC: "2E2B1428CC78254F", "First four bytes": "2E2B1428" },
    compute({ kind, padding, key, message }) {
      const Mac = MACS[kind][key.length];
      const mac = kind === "cmac" ? new Mac(key, message) : new Mac(key, Number(padding), message);
      const tag = mac.digest();
      const length = remark("Message", `${message.length} bytes`);
      return [value("MAC", tag), value("First four bytes", tag.slice(0, 4)), length];
    },
  },
  {
    id: "cvv",
    title: "Card verification value (CVV, CVC)",
    note: "For the stripe (CVV, CVC), the print (CVV2, CVC2) and the chip (iCVV).",
    fields: [
      {
        name: "key",
        label: "Card verification keys",
        short: "CVK A and B",
        hint: "The pair: 32 hexadecimal digits.",
        read: bytes(16),
      },
      account,
      {
        name: "expiry",
        label: "Expiry date",
        hint: "Four digits in the order that the issuer takes, most often year and month.",
        read: decimal,
      },
      {
        name: "service",
        label: "Service code",
        hint: "Three digits: that of the card for CVV, 000 for CVV2, 999 for iCVV.",
        read: decimal,
      },
    ],
    example: { key: BASE, account: "4123456789012345", expiry: "8701", service: "101" },
    // An example that many documents have.
    known: { "Card verification value": "561" },
    compute: ({ key, account: number, expiry, service }) =>
      [value("Card verification value", library.cvv(key, number, expiry, service))],
  },
  {
    id: "check",
    title: "Check value (KCV), parity",
    note: "The check value of a key, its parity, and whether it is weak.",
    fields: [{ name: "key", label: "Key", hint: KEY_HINT, read: bytes(...SIZES) }],
    example: { key: BASE },
    // An example that many documents have.
    known: { "Check value (KCV)": "08D7B4" },
    compute({ key }) {
      const odd = library.withOddParity(key);
      const isOdd = digitsOf(odd) === digitsOf(key);
      const refused = "refuses this key: a part is weak, semi-weak or possibly weak, or two parts are one key";
      return [
        value("Check value (KCV)", checkValueOf(key)),
        value("Its first two bytes", library.shortKeyCheckValue(key)),
        remark("Cipher", CIPHER_NAMES[key.length]),
        remark("Parity", isOdd ? "odd in every byte" : "not odd in every byte"),
        value("With odd parity", odd),
        remark("Weak key test", library.isWeakKey(key) ? refused : "passed"),
      ];
    },
  },
  {
    id: "components",
    title: "Key from components",
    note: "The key that two or more components make: their exclusive or, with odd parity.",
    fields: [
      {
        name: "components",
        label: "Components",
        hint: "One on a line, each of 16, 32 or 48 hexadecimal digits.",
        isLong: true,
        read: lines(...SIZES),
      },
    ],
    example: { components: "10101010101010101010101010101010\n1133557799BBDDFFEECCAA8866442200" },
    // By hand: the second component is the key with the fourth bit of each byte turned.
    known: { Key: BASE },
    faults: {
      WeakKey: { field: "components", words: "The key of these components is weak, or two of its parts are the same." },
    },
    compute({ components }) {
      const values = components.map((it, at) => value(`Check value of component ${at + 1}`, checkValueOf(it)));
      return [keyed("Key", library.combine(...components)), ...values];
    },
  },
  {
    id: "unwrap",
    title: "Key block: read (TR-31)",
    note: "The key of a key block and what it may be used for (ANSI X9.143, ASC X9 TR-31), versions A, B and C.",
    fields: [
      protection,
      { name: "block", label: "Key block", hint: "The whole block, from its version on.", isLong: true, read: keyBlock },
    ],
    example: {
      protection: "1D22BF32387C600AD97F9B97A51311AC",
      block: "B0104B0TX12S0100KS1800604B120F9292800000BB68BE8680A400D9191AD4ECE45B6E6C0D21C4738A52190E248719E24B433627",
    },
    // ASC X9 TR-31.
    known: { Key: "E8BC63E5479455E26577F715D587FE68", "Optional block KS": "00604B120F9292800000" },
    faults: {
      KeyBlockLength: { field: "block", words: NOT_LONG },
      KeyBlockVersion: { field: "block", words: "The block begins with none of A, B and C, the versions of triple DES." },
      KeyBlockField: { field: "block", words: "Characters 13 to 16 of the block are not two decimal digits, 0, 1 or 2, and 0." },
      OptionalBlock: { field: "block", words: "The optional blocks, from character 17 on, are not as many as the header says." },
      KeyDataLength: { field: "block", words: "Behind the header there is another number of digits than a key and its MAC have." },
      KeyBlockDigit: { field: "block", words: "Behind the header stands a character that is none of 0 to 9 and A to F in upper case." },
      KeyBlockMac: { field: "block", words: "The MAC is not that of the block. Is the protection key right, and the block whole?" },
      KeyLength: { field: "block", words: "The MAC is right, and the block holds no key of DES or triple DES." },
    },
    compute({ protection: kbpk, block }) {
      const header = library.keyBlockHeader(block);
      const answers = headerAnswers(block, header);
      try {
        return [keyAnswer(header, library.unwrapKeyBlock(kbpk, block).key), ...answers];
      } catch (error) {
        error.answers = answers.map((it) => ({ ...it, label: `${it.label}, not authenticated` }));
        throw error;
      }
    },
  },
  {
    id: "wrap",
    title: "Key block: make (TR-31)",
    note: "A key with what it may be used for, under a protection key (ANSI X9.143, ASC X9 TR-31).",
    fields: [
      protection,
      { name: "key", label: "Key", hint: KEY_HINT, read: bytes(...SIZES) },
      { name: "version", label: "Version", options: coded(VERSIONS.slice(0, 2)) },
      { name: "usage", label: "Usage", options: [...coded(USAGES), ["other", "another"]] },
      {
        name: "otherUsage",
        label: "Code of the usage",
        hint: "Two letters or digits.",
        read: shortCode(2),
        shown: ({ usage }) => usage === "other",
      },
      { name: "algorithm", label: "Algorithm", options: coded(ALGORITHMS) },
      { name: "mode", label: "Mode of use", options: coded(MODES) },
      { name: "keyVersion", label: "Version of the key", hint: "Two letters or digits; 00 if it has none.", read: shortCode(2) },
      { name: "exportability", label: "Exportability", options: coded(EXPORTABILITIES) },
      {
        name: "optional",
        label: "Optional blocks",
        hint: "None, or one on a line: as it stands in a key block, with its length, as KS1800604B120F9292800000; or its name, a space, and "
          + "its content without a length, as KS 00604B120F9292800000.",
        isLong: true,
        read: optionalBlocks,
      },
      {
        name: "padding",
        label: "Padding",
        hint: "Leave it empty: it is random then, and hides how long the key is. Else 12, 28 or 44 hexadecimal digits.",
        read: anyBytes,
      },
    ],
    example: {
      protection: "DD7515F2BFC17F85CE48F3CA25CB21F6",
      key: "3F419E1CB7079442AA37474C2EFBF8B8",
      version: "B",
      usage: "P0",
      otherUsage: "",
      algorithm: "T",
      mode: "E",
      keyVersion: "00",
      exportability: "E",
      optional: "",
      padding: "1C2965473CE2",
    },
    // A published block, whose padding OpenSSL decrypts.
    known: { "Key block": "B0080P0TE00E000094B420079CC80BA3461F86FE26EFC4A3B8E4FA4C5F5341176EED7B727B8A248E" },
    faults: {
      OptionalBlock: {
        field: "optional",
        words: "An optional block has a name of two letters or digits and a content of printable ASCII characters alone; there are 99 at "
          + "most. Leave out a block PB, or let it be the last and end them at a multiple of eight characters.",
      },
      KeyBlockLength: { field: "optional", words: "The optional blocks are too long: a key block has at most 9999 characters." },
      PaddingLength: { field: "padding", words: "With two bytes and the key the padding fills 8, 16, 24 or 32 bytes." },
    },
    compute({ protection: kbpk, key, usage, otherUsage, optional, padding, ...codes }) {
      const header = { ...codes, usage: usage === "other" ? otherUsage : usage };
      const options = padding.length === 0 ? { optional } : { optional, padding };
      const block = library.wrapKeyBlock(kbpk, header, key, options);
      return [
        value("Key block", block),
        remark("Check value of the key", checkValueOf(key)),
        remark("Padding", padding.length === 0 ? "random" : "as given"),
        ...headerAnswers(block, header),
      ];
    },
  },
  {
    id: "blocks",
    title: "Encrypt or decrypt",
    note: "With no padding: ECB and CBC take whole blocks. The length of the key chooses the cipher.",
    fields: [
      { name: "direction", label: "Direction", options: [["encrypt", "Encrypt"], ["decrypt", "Decrypt"]] },
      {
        name: "mode",
        label: "Mode",
        options: [
          ["ecb", "ECB: each block by itself"],
          ["cbc", "CBC: chained"],
          ["ctr", "CTR: a counter of 64 bits"],
          ["ofb", "OFB: output feedback"],
          ["cfb64", "CFB with 64 bits, as in OpenSSL"],
          ["cfb8", "CFB with 8 bits, as in PyCryptodome"],
          ["cfb1", "CFB with 1 bit"],
        ],
      },
      {
        name: "key",
        label: "Key",
        hint: `${KEY_HINT} DES, or triple DES with two or three keys.`,
        read: bytes(...SIZES),
      },
      {
        name: "iv",
        label: "Initialization vector",
        short: "IV",
        hint: "16 hexadecimal digits; of CTR the first counter block.",
        read: bytes(8),
        shown: ({ mode }) => mode !== "ecb",
      },
      {
        name: "data",
        label: "Data",
        hint: "Hexadecimal digits, of ECB and CBC 16 a block.",
        isLong: true,
        read: (text, { mode }) => (mode === "ecb" || mode === "cbc" ? wholeBlocks(text) : someBytes(text)),
      },
    ],
    example: {
      direction: "encrypt",
      mode: "ecb",
      key: "0123456789ABCDEF23456789ABCDEF01456789ABCDEF0123",
      iv: "",
      data: "54686520717566636B2062726F776E20666F78206A756D70",
    },
    // NIST SP 800-67, appendix B.
    known: { Ciphertext: "A826FD8CE53B855FCCE21C8112256FE668D5C05DD9B6B900" },
    compute({ direction, mode, key, iv, data }) {
      const [call, ...named] = {
        ecb: ["Ecb"],
        cbc: ["Cbc", { iv }],
        ctr: ["Ctr", { counter: iv }],
        ofb: ["Ofb", { iv }],
        cfb64: ["Cfb", { iv, segmentSize: 64 }],
        cfb8: ["Cfb", { iv, segmentSize: 8 }],
        cfb1: ["Cfb", { iv, segmentSize: 1 }],
      }[mode];
      const label = direction === "encrypt" ? "Ciphertext" : "Plaintext";
      return [value(label, cipherOf(key)[`${direction}${call}`](data, ...named)), remark("Cipher", CIPHER_NAMES[key.length])];
    },
  },
  {
    id: "records",
    title: "Old records: read",
    note: "What databases and settings have kept, a value in each line. Nothing authenticates it: a wrong key may give wrong texts.",
    fields: [
      {
        name: "writer",
        label: "Written by",
        options: [
          ["mysql", "DES_ENCRYPT of MySQL, MariaDB"],
          ["pgcrypto", "encrypt of pgcrypto (PostgreSQL)"],
          ["jasypt", "Jasypt: ENC(..)"],
        ],
      },
      { name: "key", label: "Key string or password", hint: "As a text: a key of a test.", read: utf8 },
      {
        name: "cipher",
        label: "Cipher",
        options: ["3des", "des", "3des-ecb", "des-ecb", "3des/pad:none", "des/pad:none", "3des-ecb/pad:none", "des-ecb/pad:none"]
          .map((name) => [name, name]),
        shown: ({ writer }) => writer === "pgcrypto",
      },
      {
        name: "iv",
        label: "Initialization vector",
        short: "IV",
        hint: "Of encrypt_iv, in hexadecimal digits; empty of encrypt.",
        read: anyBytes,
        shown: ({ writer }) => writer === "pgcrypto",
      },
      {
        name: "algorithm",
        label: "Algorithm",
        options: [
          ["PBEWithMD5AndDES", "PBEWithMD5AndDES, the default before version 3"],
          ["PBEWithMD5AndTripleDES", "PBEWithMD5AndTripleDES"],
          ["PBEWithSHA1AndDESede", "PBEWithSHA1AndDESede"],
        ],
        shown: ({ writer }) => writer === "jasypt",
      },
      {
        name: "iterations",
        label: "Iterations",
        hint: "1000 unless Jasypt was told another number.",
        read: iterationsOf,
        shown: ({ writer }) => writer === "jasypt",
      },
      {
        name: "values",
        label: "Values",
        hint: "One in each line: hexadecimal digits, as hex(..) of MySQL prints them; of Jasypt its strings.",
        isLong: true,
        read: (text, texts) => eachLine(texts.writer === "jasypt" ? (line) => line : anyBytes)(text, texts),
      },
    ],
    example: {
      writer: "mysql",
      key: "secret key",
      cipher: "3des",
      iv: "",
      algorithm: "PBEWithMD5AndDES",
      iterations: "1000",
      values: "FF761CE2F3FCEDDD8A59A88A58A8C312F3722AED0D3FFC72C8\nFFA3B355AF8C509A975B3C4BB286B70D4C",
    },
    // By MariaDB 10.11.
    known: { "Text 1": "4111111111111111", "Text 2": "12345678" },
    faults: { IterationCount: { field: "iterations" } },
    compute({ writer, key, cipher, iv, algorithm, iterations, values }) {
      const readers = {
        mysql: () => library.mysqlDecryptValues(key, values),
        pgcrypto: () => library.pgcryptoDecryptValues(cipher, key, values, { iv }),
        jasypt: () => library.jasyptDecryptValues(key, values, { algorithm, iterations }),
      };
      return textAnswers(readers[writer]);
    },
  },
];

// ---- Errors of the library, as faults of fields

const FIELDS_OF_ERRORS = {
  PinLength: "pin",
  PinDigit: "pin",
  AccountLength: "account",
  AccountDigit: "account",
  Fill: "fill",
  ExpiryLength: "expiry",
  ExpiryDigit: "expiry",
  ServiceLength: "service",
  ServiceDigit: "service",
  TableLength: "table",
  TableDigit: "table",
  TableVariety: "table",
  SequenceLength: "sequence",
  SequenceDigit: "sequence",
};

/** How many digits an account number has at least, if that is not 8. */
const LEAST_DIGITS = { pvv: 12, cvv: 12 };

/**
 * The fault that an error of the library is in a calculation, of the texts in its fields. Any other error comes back as
 * it is.
 */
export function faultOf({ id, faults = {} }, error, texts) {
  if (!(error instanceof library.CukvasheError)) return error;
  const { field, words } = faults[error.name] ?? { field: FIELDS_OF_ERRORS[error.name] };
  if (field === undefined) return error;
  const message =
    error.name === "AccountLength" ? `the account number does not have ${LEAST_DIGITS[id] ?? 8} to 19 digits` : error.message;
  const sentence = message.slice(0, 1).toUpperCase() + message.slice(1);
  const count = error.name.endsWith("Length") ? `, but ${decimal(texts[field]).length}` : "";
  return new FieldFault(field, words ?? `${sentence}${count}.`, error.answers);
}
