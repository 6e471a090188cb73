// The calls of bindings/known_calls.txt, which says what its lines are, for a library that is loaded.
import { hex, library, linesOf, unhex } from "./common.mjs";

const FIELDS = ["version", "usage", "algorithm", "mode", "keyVersion", "exportability"];
const MADE = {
  table: (digits) => new library.DecimalTable(digits),
  any_table: (digits) => library.DecimalTable.ofAnyVariety(digits),
  header: (fields) => Object.fromEntries(FIELDS.map((name, at) => [name, fields[at]])),
};
const WORDS = /(?:"(?:[^"\\]|\\.)*"|[^\s"])+/g;
const WORD = /^(x[0-9a-f]*|"(?:[^"\\]|\\.)*"|[A-Z][A-Z_]*)(?:\*(\d+))?(?:@(\d+)=(.+))?(?:<(\d+))?$/;
const camel = (name) => name.replace(/_([a-z0-9])/g, (_, letter) => letter.toUpperCase());

/** The words that a line beginning with `for` says. */
function eachOf(words) {
  if (words[1] !== "but") return words;
  const but = words.slice(2).map((word) => word.split("-").map(Number));
  return Array.from({ length: 34 }, (_, length) => length)
    .filter((length) => !but.some(([first, last = first]) => first <= length && length <= last))
    .map((length) => (words[0] === "bytes" ? "x5a*" : '"1"*') + length);
}

function valueOf(word, names) {
  const [kind, ...of] = word.split(":");
  if (kind in MADE) return MADE[kind](JSON.parse(of.join(":")));
  if (word in names) return names[word];
  const whole = WORD.exec(word);
  if (whole === null) return library[word] ?? JSON.parse(word);
  const [, base, times = 1, place, other, end] = whole;
  const first = names[base] ?? (base[0] === "x" ? unhex(base.slice(1)) : JSON.parse(base));
  const isText = typeof first === "string";
  const size = isText ? 1 : 2;
  let text = (isText ? first : hex(first)).repeat(Number(times));
  if (place !== undefined) {
    text = text.slice(0, size * place) + (isText ? JSON.parse(`"${other}"`) : other) + text.slice(size * place + size);
  }
  text = text.slice(0, end && size * end);
  return isText ? text : unhex(text);
}

/** Each call: its name, its arguments, and the answer, or the error and its sentence. */
export function* knownCalls() {
  const names = { right: true };
  let [outcome, each] = ["", []];
  const said = (line, comes) => {
    const [name, ...words] = line.match(WORDS);
    const [places, named] = [[], {}];
    for (const word of words) {
      const [, byName, value] = /^([a-z_]+)=(.*)$/.exec(word) ?? [];
      if (byName === undefined) places.push(valueOf(word, names));
      else named[camel(byName)] = valueOf(value, names);
    }
    if (Object.keys(named).length > 0) places.push(named);
    const [, error, sentence] = /^! (\w+) (.*)$/.exec(comes) ?? [];
    if (error !== undefined) return { name: camel(name), words: places, error, sentence: camel(sentence) };
    const [answer, key] = comes.match(WORDS).slice(1).map((word) => valueOf(word, names));
    return { name: camel(name), words: places, answer: key === undefined ? answer : { header: answer, key } };
  };
  for (const line of linesOf(new URL("../../known_calls.txt", import.meta.url))) {
    if (/^[=!]/.test(line)) {
      outcome = line;
    } else {
      for (const call of line.trim().split(" ; ")) {
        const [head, tail] = call.split(" = ");
        if (call.startsWith("for ")) each = eachOf(call.match(WORDS).slice(1));
        else if (/^[A-Z_]+$/.test(head)) names[head] = valueOf(tail, names);
        else if (tail !== undefined) yield said(head, `= ${tail}`);
        else if (!call.includes("?")) yield said(call, outcome);
        else for (const word of each) yield said(call.replaceAll("?", () => word), outcome.replace("#", /[0-9]*$/.exec(word)[0]));
      }
    }
  }
}

/** Makes a call, of a function, a constructor, a method of a class, or of a cipher whose key is the first word. */
export function run(name, words) {
  const [first, method] = name.split(".");
  if (method in library.Des.prototype) return new library[first](words[0])[method](...words.slice(1));
  if (method !== undefined) return library[first][method](...words);
  return /^[A-Z]/.test(first) ? new library[first](...words) : library[first](...words);
}
