// How what stands in a field becomes bytes, and in which words a field says that it can't.

/** What is wrong with what stands in a field. */
export class Refused extends Error {}

/** The same, of a named field, and the answers that were there before it was seen. */
export class FieldFault extends Error {
  constructor(field, message, answers = []) {
    super(message);
    this.field = field;
    this.answers = answers;
  }
}

/** Bytes as hexadecimal digits. */
export const digitsOf = (bytes) => Array.from(bytes, (byte) => byte.toString(16).padStart(2, "0")).join("").toUpperCase();

/** The bytes of a text in UTF-8. */
export const utf8 = (text) => new TextEncoder().encode(text);

// "16, 32 or 48", of numbers.
const listed = (numbers) => numbers.join(", ").replace(/, ([^,]*)$/, " or $1");

/** A text without white space, which has at least one character. */
function filled(text) {
  const characters = text.replace(/\s/g, "");
  if (characters === "") throw new Refused("Fill in this field.");
  return characters;
}

/** Whether a text has several lines, or columns, as of a table. A line end before or behind it makes no other line. */
export const hasLines = (text) => /[\t\n\v\f\r\u2028\u2029]/.test(text.trim());

/** What a field of one line says of several, or of columns: joined, two keys would be one. */
export const ONE_LINE = "One line without a tab is needed, and here are several lines or columns.";

/** Reads a text that has one line. */
const ofOneLine = (read) => (text, texts) => {
  if (hasLines(text)) throw new Refused(ONE_LINE);
  return read(text, texts);
};

/** The hexadecimal digits of a text, of which there may be any number. White space is passed over. */
function hexadecimal(text) {
  const digits = text.replace(/\s/g, "");
  const at = digits.search(/[^0-9a-f]/i);
  if (at < 0) return digits;
  const [character] = digits.slice(at);
  throw new Refused(`Character ${at + 1}, “${character}”, is not a hexadecimal digit (0 to 9, A to F).`);
}

/** The bytes of pairs of digits. */
const bytesOfPairs = (digits) => Uint8Array.from(digits.match(/../g) ?? [], (pair) => parseInt(pair, 16));

/** Reads bytes, as many as one of `sizes`. */
export const bytes = (...sizes) => (text) => {
  const digits = hexadecimal(filled(text));
  if (sizes.includes(digits.length / 2)) return bytesOfPairs(digits);
  const wanted = listed(sizes.map((size) => 2 * size));
  throw new Refused(`${wanted} hexadecimal digits are needed, and here are ${digits.length}.`);
};

/** Reads bytes, which may be none. */
export function anyBytes(text) {
  const digits = hexadecimal(text);
  if (digits.length % 2 === 0) return bytesOfPairs(digits);
  throw new Refused(`An even number of hexadecimal digits is needed, and here are ${digits.length}.`);
}

/** Reads bytes, of which there is one at least. */
export const someBytes = (text) => anyBytes(filled(text));

/** Reads blocks of eight bytes. */
export function wholeBlocks(text) {
  const digits = hexadecimal(filled(text));
  if (digits.length % 16 === 0) return bytesOfPairs(digits);
  throw new Refused(`Whole blocks of 16 hexadecimal digits are needed, and here are ${digits.length} digits.`);
}

/** Reads a key block, whose characters the library tests. White space is passed over, but for spaces that its length counts. */
export function keyBlock(text) {
  const joined = text.replace(/[\r\n]/g, "").trim();
  return joined !== "" && Number(joined.slice(1, 5)) === joined.length ? joined : filled(text);
}

/** Reads a code of `size` letters and digits. */
export const shortCode = (size) => (text) => {
  const taken = filled(text);
  if ([...taken].length !== size) throw new Refused(`${size} characters are needed, and here are ${[...taken].length}.`);
  const at = taken.search(/[^0-9A-Za-z]/);
  if (at < 0) return taken;
  const [character] = taken.slice(at);
  throw new Refused(`Character ${at + 1}, “${character}”, is no letter (A to Z, a to z) and no digit.`);
};

// The number of a text of hexadecimal digits; NaN of any other.
const numberOf = (digits) => (/^[0-9a-f]+$/i.test(digits) ? parseInt(digits, 16) : NaN);

/**
 * The content of an optional block as it stands in a key block: its name, its length in two digits, or in four after 0002 or
 * 0004, and its content. Null if the length is another.
 */
function contentOf(block) {
  const [start, end] = /^..000[24]/s.test(block) ? [6, 10] : [2, 4];
  return numberOf(block.slice(start, end)) === block.length && end <= block.length ? block.slice(end) : null;
}

/** Reads an optional block: as it stands in a key block, or a name, white space and a content without a length. */
function optionalBlock(line, at) {
  const whole = contentOf(line);
  if (whole !== null) return [line.slice(0, 2), whole];
  const [, name, content] = /^(\S{2})(?:\s+(.*))?$/s.exec(line) ?? [];
  if (name === undefined) {
    throw new Refused(`Line ${at + 1} is neither an optional block as it stands in a key block, of the length that it says, nor a name of two `
      + "characters, a space and a content.");
  }
  if (content === undefined) return [name, ""];
  if ([content, content.replace(/\s/g, "")].every((it) => contentOf(name + it) === null)) return [name, content];
  throw new Refused(`Line ${at + 1}: the content begins with the length of the block. Leave out that length; or leave out the spaces, and the `
    + "line is read as it stands in a key block.");
}

/** Reads optional blocks, each on a line of its own: pairs of a name and its content. */
export function optionalBlocks(text) {
  const lines = text.split("\n").map((line, at) => [line.trim(), at]);
  return lines.filter(([line]) => line !== "").map(([line, at]) => optionalBlock(line, at));
}

/** Reads ten hexadecimal digits as one byte for each. */
export function tenDigits(text) {
  const digits = hexadecimal(filled(text));
  if (digits.length !== 10) throw new Refused(`Ten hexadecimal digits are needed, and here are ${digits.length}.`);
  return Uint8Array.from(digits, (digit) => parseInt(digit, 16));
}

/** Reads two lines or more, all of the same number of bytes, one of `sizes`. */
export const lines = (...sizes) => (text) => {
  const texts = text.split("\n").filter((line) => line.trim() !== "");
  if (texts.length < 2) throw new Refused("Two components at least are needed, each on a line of its own.");
  const read = texts.map((line, at) => {
    try {
      return ofOneLine(bytes(...sizes))(line);
    } catch (error) {
      if (!(error instanceof Refused)) throw error;
      throw new Refused(`Component ${at + 1}: ${error.message}`);
    }
  });
  if (read.every((line) => line.length === read[0].length)) return read;
  throw new Refused("The components differ in their number of digits.");
};

/** Reads lines, of which there is one at least, each by a function; empty ones are passed over. */
export const eachLine = (read) => (text, texts) => {
  const found = text.split("\n").map((line, at) => [line.trim(), at]).filter(([line]) => line !== "");
  if (found.length === 0) throw new Refused("Fill in this field.");
  return found.map(([line, at]) => {
    try {
      return ofOneLine(read)(line, texts);
    } catch (error) {
      if (!(error instanceof Refused)) throw error;
      throw new Refused(`Line ${at + 1}: ${error.message}`);
    }
  });
};

/** Reads a number of iterations, which the library tests. */
export function iterationsOf(text) {
  const digits = filled(text);
  if (/^[0-9]{1,15}$/.test(digits)) return Number(digits);
  throw new Refused("A number of decimal digits is needed.");
}

/** Reads a number of decimal digits, which the library tests: spaces and hyphens between them are passed over. */
export const decimal = (text) => filled(text).replace(/-/g, "");

/** What the fields that are shown stand for, by their names, and the faults of those that stand for nothing. */
export function readAll(fields, texts) {
  const values = {};
  const faults = [];
  for (const { name, read = (text) => text, isLong, shown } of fields) {
    if (shown !== undefined && !shown(texts)) continue;
    try {
      values[name] = (isLong ? read : ofOneLine(read))(texts[name], texts);
    } catch (error) {
      if (!(error instanceof Refused)) throw error;
      faults.push(new FieldFault(name, error.message));
    }
  }
  return { values, faults };
}
