// fields.mjs: what the fields of the page take for one line, and what they refuse. It needs no browser.
import assert from "node:assert/strict";
import { calculations } from "../page/calculations.mjs";
import { ONE_LINE, bytes, decimal, hasLines, lines, readAll, shortCode, tenDigits } from "../page/fields.mjs";

const ENDS = ["\t", "\n", "\r\n", "\r", "\v", "\f", "\u2028", "\u2029"];
const PART = "0123456789ABCDEF";
const hex = (it) => Buffer.from(it).toString("hex").toUpperCase();

/** What a field of one line makes of a text, or its fault. */
function readOf(read, text) {
  const { values, faults } = readAll([{ name: "it", read }], { it: text });
  return faults[0]?.message ?? values.it;
}

for (const end of ENDS) {
  for (const [read, one, other] of [[bytes(16), PART, PART], [bytes(8, 16), PART, PART], [decimal, "12", "34"], [tenDigits, "ABCDE", "ABCDE"],
    [shortCode(2), "P", "0"]]) {
    // Joined, both lines would be what the field takes.
    const joined = read(one + other);
    assert.deepEqual(readOf(read, `${one} ${other}`), joined);
    for (const text of [one + end + other, `${one} ${end}${end} ${other}`, `${end}${one}${end}${other}${end}`]) {
      assert(hasLines(text));
      assert.equal(readOf(read, text), ONE_LINE);
    }
    for (const text of [one + other + end, `${end} ${one}${other} ${end}${end}`]) {
      assert(!hasLines(text));
      assert.deepEqual(readOf(read, text), joined);
    }
  }
}
assert.equal(readOf(bytes(8), "\n"), "Fill in this field.");

// Components stand on lines of their own, each on one.
const components = (text) => lines(8, 16)(text).map(hex);
assert.deepEqual(components(`${PART}\n${PART}\n`), [PART, PART]);
assert.deepEqual(components(`\n${PART}\r\n\r\n${PART}\r\n`), [PART, PART]);
for (const end of ["\t", "\v", "\f", "\u2028", "\u2029"]) {
  assert.throws(() => components(`${PART}${end}${PART}\n${PART}${PART}`), { message: `Component 1: ${ONE_LINE}` });
}

// Each field of one line in every calculation, with its example on two lines.
let count = 0;
for (const { id, fields, example } of calculations) {
  for (const { name, isLong, options, read, shown } of fields) {
    const text = example[name];
    if (isLong || options !== undefined || text.length < 2) continue;
    const { faults } = readAll([{ name, read, shown }], { ...example, [name]: `${text.slice(0, -1)}\n${text.slice(-1)}` });
    if (shown !== undefined && !shown(example)) continue;
    assert.deepEqual(faults.map(({ message }) => message), [ONE_LINE], `${id}, ${name}`);
    count += 1;
  }
}
assert(count >= 25, `${count} fields`);
console.log(`the page: ${count} fields of one line refuse several`);
