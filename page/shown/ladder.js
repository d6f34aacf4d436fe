// The picture of a run and its report: what belongs together lights up together, and an arrow that is touched shows its bytes and fields.
import { damage, deliver, hold, lose } from "./edits.js";
import { element } from "./editor.js";
import { coloured, fieldsOf, reachByKeys } from "./bytes.js";

// How much smaller a picture is shown that has no room; beyond that it is scrolled.
const MOST_SHRUNK = 1.25;

const HINT = "Point at an arrow, and its bytes and fields stand here. Click it, and it can be lost, damaged or held back.";

export class Ladder {
  #picture; #touch; #report; #editor;
  #told = { arrows: {}, reportedAt: [] };
  #chosen = null;

  constructor(picture, touch, report, editor) {
    this.#picture = picture;
    this.#touch = touch;
    this.#report = report;
    this.#editor = editor;
    for (const kind of ["mouseover", "focusin"]) picture.addEventListener(kind, (event) => this.#pointed(event));
    picture.addEventListener("click", (event) => this.#clicked(event));
    picture.addEventListener("keydown", (event) => this.#pressed(event));
    touch.addEventListener("keydown", (event) => event.key === "Escape" && this.#close());
    for (const kind of ["mouseover", "focusin"]) report.addEventListener(kind, (event) => this.#reportPointed(event));
  }

  // Shows what a script, whose text is told too, gives.
  show(told) {
    this.#told = { ...told, arrows: told.arrows ?? {}, reportedAt: told.reportedAt ?? [] };
    const lines = (told.report ?? "").split("\n").slice(0, -1);
    this.#report.replaceChildren(...lines.map((line) => element("div", line)));
    this.#picture.classList.toggle("stale", !told.picture && Boolean(told.fault));
    if (!told.picture) {
      if (!told.fault) this.#picture.replaceChildren();
      this.#hide();
      this.light({ line: this.#editor.line });
      return;
    }
    const { scrollLeft, scrollTop } = this.#picture;
    this.#picture.replaceChildren(this.#drawing(told.picture));
    this.#picture.scrollTo(scrollLeft, scrollTop);
    if (this.#chosen && this.#told.arrows[this.#chosen]) this.#choose(this.#chosen);
    else {
      this.#hide();
      this.light({ line: this.#editor.line });
    }
  }

  // Lights up what belongs to a line of the script, to an arrow, or to a line of the report; `isShown` brings it into view.
  light({ line, key, place }, isShown = false) {
    const { arrows, reportedAt } = this.#told;
    const lines = new Set(), keys = new Set(), places = new Set();
    if (key) {
      keys.add(key);
      arrows[key].lines.forEach((one) => lines.add(one));
      arrows[key].reports.forEach((one) => places.add(one));
    } else {
      const at = line ?? reportedAt[place];
      if (at) lines.add(at);
      for (const [one, arrow] of Object.entries(arrows)) {
        if (place === undefined ? arrow.lines.includes(at) : arrow.reports.includes(place)) keys.add(one);
      }
      if (place === undefined) reportedAt.forEach((one, index) => one === at && places.add(index));
      else places.add(place);
    }
    this.#paint(lines, keys, places);
    if (isShown) {
      for (const box of [this.#picture, this.#report]) scrollTo(box, box.querySelector(".lit"));
    }
  }

  #paint(lines, keys, places) {
    this.#editor.light(lines);
    for (const one of this.#picture.querySelectorAll("[data-arrow], [data-name-of]")) {
      one.classList.toggle("lit", keys.has(one.dataset.arrow ?? one.dataset.nameOf));
    }
    for (const one of this.#picture.querySelectorAll("[data-lines]")) {
      const [first, last] = one.dataset.lines.split("-").map(Number);
      one.classList.toggle("lit", [...lines].some((line) => line >= first && line <= last));
    }
    [...this.#report.children].forEach((one, index) => one.classList.toggle("lit", places.has(index)));
  }

  // The picture as a part of the page: its arrows can be reached by keys.
  #drawing(text) {
    const svg = document.adoptNode(new DOMParser().parseFromString(text, "image/svg+xml").documentElement);
    const width = Number(svg.getAttribute("width"));
    svg.style.maxWidth = `${width}px`;
    svg.style.minWidth = `${width / MOST_SHRUNK}px`;
    svg.setAttribute("role", "group");
    svg.setAttribute("aria-label", "The run as a ladder");
    for (const group of svg.querySelectorAll("[data-arrow]")) {
      const title = group.querySelector("title");
      group.setAttribute("role", "button");
      group.setAttribute("aria-label", title.textContent);
      const hit = group.querySelector("line").cloneNode();
      hit.classList.add("hit");
      group.append(hit);
    }
    reachByKeys(svg, "[data-arrow]", "ArrowDown", "ArrowUp");
    return svg;
  }

  #keyAt(event) {
    const found = event.target.closest?.("[data-arrow], [data-name-of]");
    return found && (found.dataset.arrow ?? found.dataset.nameOf);
  }

  #pointed(event) {
    const key = this.#keyAt(event);
    if (key && this.#told.arrows[key]) {
      this.light({ key });
      if (!this.#chosen || event.type === "focusin") this.#open(key);
      return;
    }
    const lines = event.target.closest?.("[data-lines]")?.dataset.lines;
    if (lines) this.light({ line: Number(lines.split("-")[0]) });
  }

  #clicked(event) {
    const key = this.#keyAt(event);
    if (key && this.#told.arrows[key]) this.#choose(key);
    else this.#hide();
  }

  #pressed(event) {
    const key = this.#keyAt(event);
    if (key && (event.key === "Enter" || event.key === " ")) {
      event.preventDefault();
      this.#choose(key);
      this.#touch.querySelector("button")?.focus();
    } else if (event.key === "Escape") this.#hide();
  }

  #reportPointed(event) {
    const place = [...this.#report.children].indexOf(event.target);
    if (place >= 0) this.light({ place });
  }

  #choose(key) {
    this.#chosen = key;
    this.light({ key });
    this.#open(key);
    const { lines } = this.#told.arrows[key];
    this.#editor.reveal(lines[lines.length - 1]);
  }

  #close() {
    const key = this.#chosen;
    this.#hide();
    if (key) this.#picture.querySelector(`[data-arrow="${CSS.escape(key)}"]`)?.focus();
  }

  #hide() {
    this.#chosen = null;
    const hint = element("p", HINT);
    hint.className = "hint";
    this.#touch.replaceChildren(hint);
    this.#touch.classList.remove("open");
  }

  // Shows the bytes and the fields of an arrow, and what can be done to it.
  #open(key) {
    const arrow = this.#told.arrows[key];
    const byte = { index: null };
    const parts = arrow.parts.map((part) => ({ ...part, bytes: arrow.bytes.slice(2 * part.first, 2 * part.after).replace(/..(?=.)/g, "$& ") }));
    const hex = coloured(arrow.bytes, arrow.parts, (index) => this.#chooseByte(byte, index));
    this.#touch.replaceChildren(element("h2", `${arrow.what} (${arrow.fate})`), ...(arrow.moves ? [this.#offers(arrow, byte)] : []), hex, fieldsOf(parts));
    this.#touch.classList.toggle("open", key === this.#chosen);
  }

  #chooseByte(byte, index) {
    byte.index = index;
    byte.shown?.(index);
    this.#touch.querySelectorAll(".hex button").forEach((one, place) => one.classList.toggle("chosen", place === index));
  }

  // What can be done to an arrow: the script is edited so.
  #offers(arrow, byte) {
    const end = this.#endLine();
    const isLost = arrow.moves.length > 0 && arrow.moves.every((move) => move.kind === "x");
    const found = element("div", "");
    found.className = "offers";
    const offer = (text, edits, ...inputs) => {
      const button = element("button", text);
      button.type = "button";
      button.addEventListener("click", () => this.#edit(edits()));
      found.append(button, ...inputs);
      return button;
    };
    if (!isLost) offer("Lose it", () => lose(arrow, end));
    if (isLost || arrow.waits) offer("Deliver it", () => deliver(arrow, end));
    if (isLost) return found;
    const mask = input("01", "Mask of the damage, two hexadecimal digits", "[0-9A-Fa-f]{2}");
    const harm = offer("Damage byte 1", () => (/^(?!00)[0-9a-f]{2}$/i.test(mask.value) ? damage(arrow, byte.index, mask.value, end) : []), "by exclusive or with", mask);
    byte.index = 0;
    byte.shown = (index) => { harm.textContent = `Damage byte ${index + 1}`; };
    const ticks = input(String(arrow.clock[1]), "Ticks that it is held back", "[0-9]{1,7}");
    offer("Hold it back", () => (/^[1-9][0-9]{0,6}$/.test(ticks.value) ? hold(arrow, arrow.clock[0], ticks.value, end) : []), "for", ticks, `ticks of ${arrow.clock[0]}`);
    return found;
  }

  // Edits the script, if it still is the one that is drawn.
  #edit(edits) {
    if (edits.length && this.#editor.text === this.#told.text) this.#editor.edit(edits);
  }

  // The line before which what is drawn ends: the one at which it is cut or refused, or the script's `end`.
  #endLine() {
    const { cutBefore, fault } = this.#told;
    if (cutBefore) return cutBefore;
    if (fault && fault.cause !== "after") return fault.line;
    const lines = this.#editor.text.split("\n");
    const end = lines.findIndex((line) => /^[ \t]*end[ \t\r]*$/.test(line));
    return end + 1;
  }
}

// Scrolls a part of the page, and not the page, so that one of its elements is to be seen.
function scrollTo(box, one) {
  if (!one || box.scrollHeight <= box.clientHeight) return;
  const inner = one.getBoundingClientRect(), outer = box.getBoundingClientRect();
  if (inner.top < outer.top || inner.bottom > outer.bottom) box.scrollTop += inner.top - outer.top - box.clientHeight / 3;
}

function input(value, label, pattern) {
  const made = element("input", "");
  Object.assign(made, { value, pattern, size: 6 });
  made.setAttribute("aria-label", label);
  return made;
}
