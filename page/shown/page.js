// The page: its tabs, its examples, and its state in the address.
import { Editor } from "./editor.js";
import { Ladder } from "./ladder.js";
import { Captures } from "./captures.js";
import { linkOf, stateOf } from "./link.js";

const byId = (id) => document.getElementById(id);
const MOST_SCRIPT = 17 * 2 ** 20;

// How many lines before the one that is written a long script is drawn from.
const LEAD = 30;

let examples = { groups: [], captures: [] };
let tab = "script";
let asked = null;
let waiting = 0, keeping = 0;

// The line of the script that the picture begins with, and the one before which it is cut.
let first = 1, cut = null;

const editor = new Editor(document.querySelector(".editor"), byId("fault"), { changed, moved: (line, isCaret) => ladder.light({ line }, isCaret) });
const ladder = new Ladder(byId("picture"), byId("touch"), byId("report"), editor);
const captures = new Captures(keepSoon);

// How long to wait after a change until it is drawn, in milliseconds.
function delay(size) {
  return size < 50_000 ? 60 : size < 1_000_000 ? 200 : 1000;
}

function changed() {
  follow(editor.line);
  clearTimeout(waiting);
  waiting = setTimeout(draw, delay(editor.text.length));
}

// Moves the part that is drawn to where the script is written, where that isn't to be seen.
function follow(line) {
  if (line < first || (cut !== null && line >= cut)) first = Math.max(1, line - LEAD);
}

function drawFrom(line) {
  first = line;
  draw();
}

async function draw() {
  keepSoon();
  asked?.abort();
  asked = new AbortController();
  const text = editor.text;
  const body = new TextEncoder().encode(text);
  if (body.length > MOST_SCRIPT) {
    return show({ why: `A script of ${body.length.toLocaleString("en")} bytes isn't sent: no script is so long.`, report: "", reportBytes: 0 });
  }
  byId("picture").setAttribute("aria-busy", "true");
  const told = await answerTo(body, asked.signal);
  if (told && text === editor.text) show({ ...told, text });
}

// What the server tells of a script, or nothing where a later one was asked about meanwhile.
async function answerTo(body, signal) {
  const nothing = { report: "", reportBytes: 0 };
  try {
    const answer = await fetch(`replay?from=${first}`, { method: "POST", body, signal });
    return answer.ok ? await answer.json() : { ...nothing, why: await answer.text() };
  } catch (fault) {
    return fault.name === "AbortError" ? null : { ...nothing, why: "The server doesn't answer: was df1-page ended?" };
  }
}

function show(told) {
  editor.mark(told.fault ?? null);
  const why = byId("why");
  why.textContent = told.why ?? (told.fault ? `Drawn: the lines before line ${told.fault.line}.` : "");
  why.hidden = !why.textContent;
  ladder.show(told);
  cut = told.cutBefore ?? null;
  byId("part").hidden = first === 1 && cut === null;
  byId("part").firstElementChild.textContent = `Lines ${first} to ${cut === null ? "the end" : cut - 1} are drawn.`;
  byId("next").hidden = cut === null;
  byId("start").hidden = first === 1;
  const shown = told.report?.length ?? 0;
  byId("report-size").textContent = told.reportBytes > shown ? `the first ${shown.toLocaleString("en")} of ${told.reportBytes.toLocaleString("en")} bytes` : "";
  byId("picture").removeAttribute("aria-busy");
  document.documentElement.dataset.drawn = String(Number(document.documentElement.dataset.drawn ?? 0) + 1);
}

// What the page shows stands in the address, behind the #. Browsers take a new one now and then, and not at each letter.
function keepSoon() {
  clearTimeout(keeping);
  keeping = setTimeout(keep, 300);
}

function keep() {
  clearTimeout(keeping);
  const link = tab === "script" ? linkOf({ script: editor.text }) : linkOf({ capture: captures.text, side: captures.side, check: captures.check, way: captures.way });
  history.replaceState(null, "", link ?? location.pathname);
  say(link ? "" : "Too long for a link.");
  return link;
}

function say(text) {
  byId("said").textContent = text;
}

async function copy() {
  if (!keep()) return;
  try {
    await navigator.clipboard.writeText(location.href);
    say("The link is copied.");
  } catch {
    say("The link is the address of this page.");
  }
}

function choose(name, takesFocus = false) {
  tab = name;
  for (const one of ["script", "capture"]) {
    const button = byId(`tab-${one}`);
    button.setAttribute("aria-selected", String(one === name));
    button.tabIndex = one === name ? 0 : -1;
    byId(`${one}-panel`).hidden = one !== name;
    if (one === name && takesFocus) button.focus();
  }
  fillMenu();
}

function fillMenu() {
  const menu = byId("examples");
  menu.replaceChildren(new Option(tab === "script" ? "what a script shows .." : "a capture ..", ""));
  if (tab === "capture") {
    for (const one of examples.captures) menu.append(new Option(one.name, one.name));
    return;
  }
  for (const group of examples.groups) {
    const part = document.createElement("optgroup");
    part.label = group.name;
    for (const one of group.scripts) part.append(new Option(one.shows, one.name));
    menu.append(part);
  }
}

function takeExample(name) {
  if (tab === "capture") {
    captures.take(examples.captures.find((one) => one.name === name));
  } else {
    editor.text = examples.groups.flatMap((group) => group.scripts).find((one) => one.name === name).text;
    drawFrom(1);
  }
}

async function load() {
  const state = stateOf(location.hash);
  if ("capture" in state) {
    choose("capture");
    captures.take({ text: state.capture, side: state.side, check: state.check, way: state.way });
    return;
  }
  choose("script");
  begin(state.script);
}

// Begins with a script, or with the one that the server has.
async function begin(script) {
  editor.text = script ?? (await (await fetch("script")).text());
  drawFrom(1);
}

// Shows a tab that was chosen.
function turnTo(name, takesFocus) {
  choose(name, takesFocus);
  if (name === "script" && asked === null) begin();
  else keep();
}

for (const name of ["script", "capture"]) {
  byId(`tab-${name}`).addEventListener("click", () => turnTo(name, false));
  byId(`tab-${name}`).addEventListener("keydown", (event) => {
    if (event.key === "ArrowLeft" || event.key === "ArrowRight") turnTo(name === "script" ? "capture" : "script", true);
  });
}
byId("examples").addEventListener("change", (event) => event.target.value && takeExample(event.target.value));
byId("start").addEventListener("click", () => drawFrom(1));
byId("next").addEventListener("click", () => drawFrom(cut));
byId("copy").addEventListener("click", copy);
addEventListener("hashchange", load);
load();
fetch("examples").then((answer) => answer.json()).then((found) => { examples = found; fillMenu(); });
