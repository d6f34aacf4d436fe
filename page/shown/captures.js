// A capture in hexadecimal, and what is heard in it: a table of items, each of whose bytes are coloured.
import { element } from "./editor.js";
import { fieldsOf, reachByKeys } from "./bytes.js";

const byId = (id) => document.getElementById(id);
const COLOURS = 7;

export class Captures {
  #kept; #waiting = 0; #asked = null;
  #spans = [];
  #rows = [];

  // `kept` is called where what is shown has changed.
  constructor(kept) {
    this.#kept = kept;
    for (const id of ["capture", "side", "check", "way"]) byId(id).addEventListener("input", () => this.#changed());
    for (const kind of ["mouseover", "click"]) byId("bytes").addEventListener(kind, (event) => this.#pointed(event.target.dataset?.item));
    byId("items").addEventListener("mouseover", (event) => this.#pointed(event.target.closest("tr")?.dataset.item));
    byId("items").addEventListener("focusin", (event) => this.#pointed(event.target.closest("tr")?.dataset.item));
  }

  get text() { return byId("capture").value; }
  get side() { return byId("side").value; }
  get check() { return byId("check").value; }
  get way() { return byId("way").value; }

  // Takes a capture: its text, and how it is read.
  take({ text, side, check, way }) {
    byId("capture").value = text;
    byId("side").value = side || "full";
    byId("check").value = check || "bcc";
    byId("way").replaceChildren(...(way ? [new Option(way, way)] : []));
    this.#changed(0);
  }

  #changed(delay = 80) {
    clearTimeout(this.#waiting);
    this.#waiting = setTimeout(() => this.#ask(), delay);
  }

  async #ask() {
    this.#kept();
    this.#asked?.abort();
    this.#asked = new AbortController();
    const words = new URLSearchParams({ side: this.side, check: this.check, way: this.way });
    try {
      const answer = await fetch(`dissect?${words}`, { method: "POST", body: this.text, signal: this.#asked.signal });
      this.#show(answer.ok ? await answer.json() : { why: await answer.text() });
    } catch (fault) {
      if (fault.name !== "AbortError") this.#show({ why: "The server doesn't answer: was df1-page ended?" });
    }
  }

  #show(told) {
    this.#showWays(told.ways ?? []);
    const counts = byId("counts");
    counts.classList.toggle("wrong", Boolean(told.why));
    counts.textContent = told.why ?? `heard ${told.heard} bad ${told.bad} open ${told.open}`;
    if (told.count > (told.items?.length ?? 0)) counts.textContent += `; the first ${told.items.length} are shown`;
    byId("item-fields").hidden = true;
    this.#showBytes(told.bytes ?? "", told.items ?? []);
    this.#rows = told.items ?? [];
    byId("items").tBodies[0].replaceChildren(...this.#rows.map((item, index) => this.#row(item, index)));
    reachByKeys(byId("items").tBodies[0], "tr", "ArrowDown", "ArrowUp");
    document.documentElement.dataset.heard = String(Number(document.documentElement.dataset.heard ?? 0) + 1);
  }

  #showWays(ways) {
    const way = byId("way"), chosen = way.value;
    byId("way-choice").hidden = ways.length === 0;
    way.replaceChildren(...ways.map((one) => new Option(one, one)));
    if (ways.includes(chosen)) way.value = chosen;
  }

  #showBytes(digits, items) {
    const found = element("div", "");
    found.className = "hex";
    this.#spans = [];
    const owners = this.#owners(items);
    for (let place = 0; place < digits.length / 2; place++) {
      const owner = owners.get(place);
      const byte = element("span", digits.slice(2 * place, 2 * place + 2));
      if (owner !== undefined) {
        byte.className = shade(items[owner], owner);
        byte.dataset.item = String(owner);
      }
      byte.classList.toggle("eighth", place % 8 === 7);
      this.#spans.push(byte);
      found.append(byte);
    }
    byId("bytes").replaceChildren(found);
  }

  // The item that each byte is of: of two that overlap the shorter one, as of a response inside a frame.
  #owners(items) {
    const owners = new Map();
    const longest = items.map((_, index) => index).sort((one, other) => size(items[other]) - size(items[one]));
    for (const index of longest) {
      for (let place = items[index].first; place <= items[index].last; place++) owners.set(place, index);
    }
    return owners;
  }

  #row(item, index) {
    const sample = element("span", "");
    sample.className = `sample ${shade(item, index)}`;
    const says = item.says ? [item.says, element("br", "")] : [];
    const row = element("tr", "", element("td", `${item.first}–${item.last}`), element("td", "", sample, item.kind), element("td", "", ...says, element("code", item.rest)));
    row.dataset.item = String(index);
    return row;
  }

  // Lights an item up in the table and in the bytes, and shows its fields.
  #pointed(name) {
    if (name === undefined) return;
    const index = Number(name), item = this.#rows[index];
    for (const row of byId("items").tBodies[0].rows) row.classList.toggle("lit", row.dataset.item === name);
    this.#spans.forEach((span, place) => span.classList.toggle("lit", place >= item.first && place <= item.last));
    const fields = byId("item-fields");
    fields.hidden = !item.parts;
    if (!item.parts) return;
    const parts = item.parts.map((part) => ({ ...part, bytes: part.places.map((place) => this.#spans[place].textContent).join(" ") }));
    fields.replaceChildren(element("h2", `${item.first}–${item.last}: ${item.says}`), fieldsOf(parts));
  }
}

function size(item) {
  return item.last - item.first;
}

// The class of an item's colour: faults have one of their own.
function shade(item, index) {
  return item.isSound ? `kind-${1 + (index % (COLOURS - 1))}` : "kind-wrong";
}
