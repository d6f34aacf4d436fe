// Bytes in hexadecimal, each in the colour of the part that it is of, and the parts one by one.
import { element } from "./editor.js";

const COLOURS = { DST: 1, SRC: 1, CMD: 2, FNC: 2, STS: 3, "EXT STS": 3, TNS: 4, address: 5, ADDRESS: 5, data: 6, check: 7 };

// The class of the colour of a part.
export function colourOf(name) {
  return `kind-${COLOURS[name] ?? 0}`;
}

// The bytes; a click on one calls `chosen` with its place.
export function coloured(digits, parts, chosen) {
  const found = element("div", "");
  found.className = "hex";
  for (let place = 0; place < digits.length / 2; place++) {
    const part = parts.find((one) => place >= one.first && place < one.after);
    const byte = element("button", digits.slice(2 * place, 2 * place + 2));
    byte.type = "button";
    byte.className = colourOf(part?.name);
    byte.title = part ? `byte ${place + 1}: ${part.name}` : `byte ${place + 1}`;
    byte.addEventListener("click", () => chosen(place));
    found.append(byte, " ");
  }
  reachByKeys(found, "button", "ArrowRight", "ArrowLeft");
  return found;
}

// Makes one of many elements a stop of the Tab key; two keys go from it to the next one and to the one before.
export function reachByKeys(box, selector, onward, back) {
  const all = [...box.querySelectorAll(selector)];
  all.forEach((one, index) => { one.tabIndex = index ? -1 : 0; });
  box.onkeydown = (event) => {
    const at = all.indexOf(event.target), next = all[at + (event.key === onward ? 1 : event.key === back ? -1 : 0)];
    if (at < 0 || !next || next === event.target) return;
    event.preventDefault();
    event.target.tabIndex = -1;
    next.tabIndex = 0;
    next.focus();
  };
}

// The parts: the name of each, its bytes, and what it says.
export function fieldsOf(parts) {
  const found = element("div", "");
  found.className = "fields";
  for (const part of parts) {
    const name = element("b", part.name);
    name.className = colourOf(part.name);
    found.append(element("div", "", name, " ", element("code", part.bytes), element("span", part.text)));
  }
  return found;
}
