// The script as it is written: its lines with their numbers, the faulty one marked, and those that are lit.

import { change, inOrder } from "./edits.js";

const LINE_HEIGHT = 20;
const TOP = 8;

export class Editor {
  #area; #numbers; #lights; #fault; #heard;
  #wrong = null;
  #lit = new Set();
  #count = 1;
  #pointedAt = 0;

  // `heard` has what is called when the text has changed, and when a line is pointed at, or has the caret.
  constructor(box, fault, heard) {
    this.#area = box.querySelector("textarea");
    this.#numbers = box.querySelector(".numbers");
    this.#lights = box.querySelector(".lights");
    this.#fault = fault;
    this.#heard = heard;
    this.#area.addEventListener("input", () => { this.#counted(); heard.changed(); });
    this.#area.addEventListener("scroll", () => this.#paint());
    this.#area.addEventListener("mousemove", (event) => this.#pointed(event));
    for (const kind of ["keyup", "click", "focus"]) this.#area.addEventListener(kind, () => heard.moved(this.line, true));
    new ResizeObserver(() => this.#paint()).observe(box);
  }

  get text() { return this.#area.value; }

  set text(text) {
    this.#area.value = text;
    this.#area.scrollTop = 0;
    this.#area.setSelectionRange(0, 0);
    this.#counted();
  }

  // The line of the caret, counted from 1.
  get line() {
    return this.text.slice(0, this.#area.selectionStart).split("\n").length;
  }

  // Marks the line of a fault, and says what it is; null clears it.
  mark(fault) {
    this.#wrong = fault;
    this.#fault.hidden = !fault;
    this.#fault.replaceChildren(...(fault ? this.#words(fault) : []));
    this.#area.setAttribute("aria-invalid", String(Boolean(fault)));
    this.#paint();
  }

  // Lights lines up.
  light(lines) {
    this.#lit = new Set(lines);
    this.#paint();
  }

  // Shows a line, where it isn't to be seen.
  reveal(line) {
    const top = (line - 1) * LINE_HEIGHT;
    const { scrollTop, clientHeight } = this.#area;
    if (top < scrollTop || top + LINE_HEIGHT + TOP > scrollTop + clientHeight) this.#area.scrollTop = Math.max(0, top - clientHeight / 3);
  }

  // Puts lines in the place of others: each edit has a line, how many lines go, and those that come. The browser can undo it.
  edit(edits) {
    for (const edit of inOrder(edits)) {
      const { first, last, text } = change(this.text, edit);
      this.#area.focus();
      this.#area.setSelectionRange(first, last);
      if (!document.execCommand("insertText", false, text)) this.#area.setRangeText(text, first, last, "end");
    }
    this.#counted();
    this.#heard.changed();
  }

  #pointed(event) {
    const line = Math.floor((event.offsetY + this.#area.scrollTop - TOP) / LINE_HEIGHT) + 1;
    if (line === this.#pointedAt || line < 1 || line > this.#count) return;
    this.#pointedAt = line;
    this.#heard.moved(line, false);
  }

  #counted() {
    let count = 1;
    for (let at = this.text.indexOf("\n"); at >= 0; at = this.text.indexOf("\n", at + 1)) count++;
    this.#count = count;
    this.#area.parentElement.style.setProperty("--digits", String(Math.max(3, String(count).length)));
    this.#paint();
  }

  // The numbers and lights of the lines that are to be seen, no others.
  #paint() {
    const { scrollTop, clientHeight } = this.#area;
    const first = Math.max(1, Math.floor((scrollTop - TOP) / LINE_HEIGHT));
    const wrong = this.#wrong?.line;
    const last = Math.min(Math.max(this.#count, wrong ?? 0), first + Math.ceil(clientHeight / LINE_HEIGHT) + 2);
    const numbers = [], lights = [];
    for (let line = first; line <= last; line++) {
      const top = `${TOP + (line - 1) * LINE_HEIGHT - scrollTop}px`;
      const add = (list, text, kind) => {
        const one = document.createElement("div");
        one.textContent = text;
        one.className = kind;
        one.style.top = top;
        list.push(one);
      };
      add(numbers, String(line), line === wrong ? "wrong" : "");
      if (line === wrong) add(lights, "", "wrong");
      else if (this.#lit.has(line)) add(lights, "", "lit");
    }
    this.#numbers.replaceChildren(...numbers);
    this.#lights.replaceChildren(...lights);
  }

  // What is wrong, in words.
  #words(fault) {
    const head = element("strong", `Line ${fault.line}: ${fault.cause}`);
    const jump = element("button", "Go there");
    jump.type = "button";
    jump.addEventListener("click", () => this.#goTo(fault.line));
    const found = [head, jump];
    if (fault.hints.length) {
      const list = element("ul", "");
      for (const hint of fault.hints) {
        list.append(element("li", "", element("code", hint.written), " has to be ", element("code", hint.right), ": ", ...coded(hint.why)));
      }
      found.push(element("p", "What usually leads to it:"), list);
    }
    if (fault.form) found.push(element("p", "", "The form is ", element("code", fault.form.form), ": ", ...coded(fault.form.meaning)));
    found.push(element("p", "", `The cause ${fault.cause}: `, ...coded(fault.sentence)));
    return found;
  }

  #goTo(line) {
    const place = this.text.split("\n").slice(0, line - 1).reduce((sum, text) => sum + text.length + 1, 0);
    this.#area.focus();
    this.#area.setSelectionRange(place, place);
    this.reveal(line);
  }
}

// An element with a text, or with these parts.
export function element(name, text, ...parts) {
  const made = document.createElement(name);
  made.append(text, ...parts);
  return made;
}

// A sentence of the docs: what stands in backticks is code.
function coded(sentence) {
  return sentence.split("`").map((part, index) => (index % 2 ? element("code", part) : part));
}
