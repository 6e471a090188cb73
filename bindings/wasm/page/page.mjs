// The page: a form for each calculation of the table, and what was computed.
import { NotSupported, isSupported, load } from "../cukvashe_des.mjs";
import { calculations, faultOf } from "./calculations.mjs";
import { FieldFault, ONE_LINE, hasLines, readAll } from "./fields.mjs";

const byId = (id) => document.getElementById(id);

/** An element with attributes and children. */
function make(tag, attributes = {}, ...children) {
  const element = document.createElement(tag);
  for (const [name, value] of Object.entries(attributes)) if (value !== undefined) element.setAttribute(name, value);
  element.append(...children);
  return element;
}

const button = (attributes, action, ...children) => {
  const element = make("button", { type: "button", ...attributes }, ...children);
  element.addEventListener("click", action);
  return element;
};

// ---- Fields

/** The control of a field: a list to choose from, a line, or several lines. */
function controlOf(field, id) {
  if (field.options !== undefined) {
    const options = field.options.map(([value, words]) => make("option", { value }, words));
    return make("select", { id, name: field.name, "aria-describedby": `${id}-fault` }, ...options);
  }
  const described = field.hint === undefined ? `${id}-fault` : `${id}-hint ${id}-fault`;
  const attributes = {
    id, name: field.name, autocomplete: "off", autocapitalize: "off", spellcheck: "false", "aria-describedby": described,
  };
  return field.isLong ? make("textarea", { ...attributes, rows: 4 }) : make("input", { ...attributes, type: "text" });
}

/** Ten digits at random, each of the given ones as likely as another. */
function tenRandom(digits) {
  const most = 256 - (256 % digits.length);
  let text = "";
  while (text.length < 10) {
    const [byte] = crypto.getRandomValues(new Uint8Array(1));
    if (byte < most) text += digits[byte % digits.length];
  }
  return text;
}

/** A field: its label, hint, control, and the place of its fault. */
function rowOf(calculation, field) {
  const id = `${calculation.id}-${field.name}`;
  const control = controlOf(field, id);
  const fault = make("p", { class: "fault", id: `${id}-fault` });
  const label = make("label", { for: id }, field.label);
  if (field.short !== undefined) label.append(" ", make("span", { class: "short" }, `(${field.short})`));
  const element = make("div", { class: field.options === undefined ? "field" : "field choice" }, label);
  if (field.hint !== undefined) element.append(make("p", { class: "hint", id: `${id}-hint` }, field.hint));
  element.append(control, fault);
  return { field, control, fault, element };
}

/** The text that an event is about to put into a field. */
const broughtBy = (event) => (event.clipboardData ?? event.dataTransfer)?.getData("text/plain") ?? event.data ?? "";

// ---- Answers

/** Puts a text on the clipboard. If a browser keeps pages from disks away from it, the old way is left. */
async function copy(text, shown) {
  try {
    await navigator.clipboard.writeText(text);
  } catch {
    getSelection().selectAllChildren(shown);
    if (!document.execCommand("copy")) return "Not copied: press Ctrl+C";
  }
  return "Copied";
}

/** The lines of an answer in a list of answers. */
function linesOf({ label, value, checkValue, words }) {
  const term = make("dt", {}, label);
  if (value === undefined) return [term, make("dd", { class: "words" }, words)];
  const shown = make("span", { class: "value" }, value);
  const copies = button({ class: "copy", "aria-label": `Copy ${label}` }, async () => {
    copies.textContent = await copy(value, shown);
    byId("said").textContent = `${copies.textContent}: ${label}`;
    setTimeout(() => { copies.textContent = "Copy"; }, 2000);
  }, "Copy");
  const line = make("dd", {}, shown, " ", copies);
  if (checkValue !== undefined) line.append(" ", make("span", { class: "check" }, `KCV ${checkValue}`));
  return [term, line];
}

const listOf = (answers) => make("dl", {}, ...answers.flatMap(linesOf));

// ---- A calculation

/** The form of a calculation, and the place of its answers. */
class Form {
  constructor(calculation) {
    this.calculation = calculation;
    this.rows = calculation.fields.map((field) => rowOf(calculation, field));
    this.answer = make("div", { class: "answer", role: "status", "aria-label": "Answer" });
    this.element = make("form", { novalidate: "", autocomplete: "off" });
    this.element.addEventListener("input", () => this.begin());
    // A form is emptied after this event.
    this.element.addEventListener("reset", () => setTimeout(() => this.begin()));
    this.element.addEventListener("submit", (event) => {
      event.preventDefault();
      this.compute();
    });
    for (const row of this.rows) {
      if (row.field.random !== undefined) this.offerRandom(row);
      if (row.control.type === "text") this.refuseLines(row);
    }
    const compute = make("button", { type: "submit" }, "Compute");
    const buttons = make("div", { class: "buttons" }, compute, button({}, () => this.fillIn(), "Fill in an example"));
    this.element.append(...this.rows.map((row) => row.element), buttons);
    this.begin();
  }

  texts() {
    return Object.fromEntries(this.rows.map(({ field, control }) => [field.name, control.value]));
  }

  /** Forgets answers and faults, and shows the fields that go with what was chosen. */
  begin() {
    this.answer.replaceChildren();
    const texts = this.texts();
    for (const { field, control, fault, element } of this.rows) {
      fault.textContent = "";
      control.removeAttribute("aria-invalid");
      element.hidden = field.shown !== undefined && !field.shown(texts);
    }
  }

  fillIn() {
    for (const { field, control } of this.rows) control.value = this.calculation.example[field.name];
    this.begin();
  }

  offerRandom({ field, control, fault }) {
    const fills = () => {
      control.value = tenRandom(field.random(this.texts()));
      this.begin();
    };
    fault.after(button({}, fills, "Random digits"));
  }

  /** Refuses several lines that are pasted, dropped or typed into a field of one: a browser would join them, and two keys be one. */
  refuseLines({ field, control }) {
    const refuses = (event) => {
      if (!hasLines(broughtBy(event))) return;
      event.preventDefault();
      this.begin();
      this.blame([new FieldFault(field.name, `${ONE_LINE} Nothing was put in.`)]);
    };
    for (const kind of ["paste", "drop", "beforeinput"]) control.addEventListener(kind, refuses);
  }

  compute() {
    this.begin();
    const { values, faults } = readAll(this.calculation.fields, this.texts());
    if (faults.length > 0) {
      this.blame(faults);
      return;
    }
    try {
      this.answer.append(listOf(this.calculation.compute(values)));
    } catch (error) {
      this.explain(faultOf(this.calculation, error, this.texts()));
    }
    this.answer.scrollIntoView({ block: "nearest" });
  }

  /** Says why there is no answer: beside the field that is at fault, or else in the answer's place. */
  explain(fault) {
    if (fault instanceof FieldFault) {
      if (fault.answers.length > 0) this.answer.append(listOf(fault.answers));
      this.blame([fault]);
    } else {
      this.answer.append(make("p", { class: "fault" }, `The library failed (${fault.message}): open the page anew.`));
    }
  }

  /** Shows faults beside their fields. The first field has the focus. */
  blame(faults) {
    for (const { field, message } of faults) {
      const { control, fault } = this.rows.find((row) => row.field.name === field);
      fault.textContent = message;
      control.setAttribute("aria-invalid", "true");
    }
    this.rows.find(({ fault }) => fault.textContent !== "").control.focus();
  }
}

/** The section of a calculation. */
function sectionOf(calculation) {
  const { id, title, note } = calculation;
  const form = new Form(calculation);
  const heading = make("h2", { id: `${id}-title`, tabindex: "-1" }, title);
  const attributes = { id, "aria-labelledby": heading.id };
  return make("section", attributes, heading, make("p", { class: "note" }, note), form.element, form.answer);
}

/** How many known values the calculations give. One that is another ends the page. */
function knownCount() {
  let count = 0;
  for (const { title, fields, example, known, compute } of calculations) {
    const { values, faults } = readAll(fields, example);
    const answers = faults.length > 0 ? [] : compute(values);
    for (const [label, wanted] of Object.entries(known)) {
      const answer = answers.find((it) => it.label === label);
      if (answer?.value !== wanted) throw new Error(`“${title}” gives a wrong ${label}`);
      count += 1;
    }
  }
  return count;
}

// ---- The page as a whole

/** Shows the calculation that the address names, or the first one. */
function route() {
  const { id, title } = calculations.find((it) => `#${it.id}` === location.hash) ?? calculations[0];
  for (const calculation of calculations) byId(calculation.id).hidden = calculation.id !== id;
  for (const link of document.querySelectorAll("nav a")) {
    if (link.hash === `#${id}`) link.setAttribute("aria-current", "page");
    else link.removeAttribute("aria-current");
  }
  document.title = `${title} - Cukvashe`;
  return id;
}

/** The bytes of the module, which stand in the page in base64, compressed by gzip. */
function moduleBytes() {
  const compressed = Uint8Array.from(atob(byId("module").textContent), (character) => character.charCodeAt(0));
  return new Response(new Blob([compressed]).stream().pipeThrough(new DecompressionStream("gzip"))).arrayBuffer();
}

async function start() {
  // A browser that has no WebAssembly may lack what unpacks the module too.
  await load(isSupported() ? await moduleBytes() : undefined);
  const count = knownCount();
  for (const calculation of calculations) {
    byId("list").append(make("li", {}, make("a", { href: `#${calculation.id}` }, calculation.title)));
    byId("main").append(sectionOf(calculation));
  }
  route();
  addEventListener("hashchange", () => byId(`${route()}-title`).focus());
  byId("clear").addEventListener("click", () => {
    for (const form of document.forms) form.reset();
    byId("state").textContent = "Every field is empty.";
  });
  byId("clear").hidden = false;
  byId("state").textContent = `Ready: the library in this page computed ${count} known values, and all are right.`;
}

/** Says why the page offers nothing. */
function refuse(words) {
  byId("state").className = "fault";
  byId("state").textContent = words;
}

start().catch((error) => {
  const advice = error instanceof NotSupported ? "" : " The file may be damaged: get it anew.";
  refuse(`This page offers nothing, since ${error.message}.${advice}`);
});
