// How a script is edited so that what an arrow shows is lost, damaged, held back or delivered.
//
// An arrow's moves say which bytes of which event lines take it from its queue: the line, the kind and the count of the event, the first
// of its bytes that is the arrow's, and how many. `waits` tells of what is still under way: the bytes ahead of it, and its own.

// What an edit puts where into a text: the place of its first letter, that behind its last one, and what comes there.
export function change(text, { line, gone, lines }) {
  const all = text.split("\n");
  const size = (some) => some.reduce((sum, one) => sum + one.length + 1, 0);
  const first = Math.min(size(all.slice(0, line - 1)), text.length);
  const last = Math.min(first + size(all.slice(line - 1, line - 1 + gone)), text.length);
  const isOpen = first === text.length && text !== "" && !text.endsWith("\n");
  return { first, last, text: (isOpen ? "\n" : "") + lines.map((one) => `${one}\n`).join("") };
}

// The edits in the order in which they can be made one after another: the last line first.
export function inOrder(edits) {
  return [...edits].sort((one, other) => other.line - one.line);
}

// An event line of a kind and a count, on the arrow's queue.
function eventLine(arrow, kind, operand) {
  return [`${arrow.end}${kind}`, arrow.station, operand].filter((word) => word !== null && word !== "").join(" ");
}

// The lines in place of one event, cut into parts of these sizes and lines between; parts of no byte are left out.
function parts(arrow, pieces) {
  return pieces.flatMap((piece) => (typeof piece === "string" ? [piece] : piece.size > 0 ? [eventLine(arrow, piece.kind, piece.size)] : []));
}

// The moves by the lines of their events.
function byLine(moves) {
  const found = new Map();
  for (const move of moves) found.set(move.line, [...(found.get(move.line) ?? []), move]);
  return [...found.entries()];
}

// Turns the events that take the arrow's bytes into those of another kind.
function turn(arrow, kind) {
  return byLine(arrow.moves).map(([line, moves]) => {
    const pieces = [];
    let at = 0;
    for (const move of moves) {
      pieces.push({ kind: move.kind, size: move.first - at }, { kind, size: move.size });
      at = move.first + move.size;
    }
    pieces.push({ kind: moves[0].kind, size: moves[0].count - at });
    return { line, gone: 1, lines: parts(arrow, pieces) };
  });
}

// What is under way is taken from its queue before the script's end.
function take(arrow, kind, end) {
  const { ahead, size } = arrow.waits;
  return { line: end, gone: 0, lines: parts(arrow, [{ kind: "d", size: ahead }, { kind, size }]) };
}

// Loses the arrow's bytes; `end` is the line of the script's `end`.
export function lose(arrow, end) {
  return [...turn(arrow, "x"), ...(arrow.waits ? [take(arrow, "x", end)] : [])];
}

// Delivers the arrow's bytes.
export function deliver(arrow, end) {
  return [...turn(arrow, "d"), ...(arrow.waits ? [take(arrow, "d", end)] : [])];
}

// Alters a byte of the arrow, counted from 0, by a mask, before it leaves its queue.
export function damage(arrow, index, mask, end) {
  const altered = eventLine(arrow, "c", mask);
  let before = 0;
  for (const move of arrow.moves) {
    if (index < before + move.size) {
      const at = move.first + index - before;
      return [{ line: move.line, gone: 1, lines: parts(arrow, [{ kind: move.kind, size: at }, altered, { kind: move.kind, size: move.count - at }]) }];
    }
    before += move.size;
  }
  return [{ line: end, gone: 0, lines: parts(arrow, [{ kind: "d", size: arrow.waits.ahead + index - before }, altered]) }];
}

// Lets so many ticks of a clock pass before the arrow's first byte is taken from its queue.
export function hold(arrow, clock, ticks, end) {
  const late = `${clock}t ${ticks}`;
  const move = arrow.moves[0];
  if (!move) return [{ line: end, gone: 0, lines: [late] }];
  return [{ line: move.line, gone: 1, lines: parts(arrow, [{ kind: move.kind, size: move.first }, late, { kind: move.kind, size: move.count - move.first }]) }];
}
