// The formulas of a text, and places in it.

// The formulas of a text: runs of lines that are not empty. `start` is the offset of the first line.
export function formulasOf(text) {
  const formulas = [];
  let offset = 0;
  let current = null;
  for (const line of text.split("\n")) {
    if (!line.trim()) {
      current = null;
    } else if (current) {
      current.source += "\n" + line;
    } else {
      current = { start: offset, source: line };
      formulas.push(current);
    }
    offset += line.length + 1;
  }
  return formulas;
}

// The offset in `text` of a line and a column, both from 1. Columns count characters, and a character outside of
// Unicode's first plane has two units in a string.
function offsetOf(text, line, column) {
  const lines = text.split("\n");
  const before = lines.slice(0, line - 1).reduce((sum, each) => sum + each.length + 1, 0);
  return before + [...(lines[line - 1] ?? "")].slice(0, column - 1).join("").length;
}

// The range of a fault in the whole text; it has at least one character, or the end of the text.
export function rangeOf(formula, fault) {
  const start = offsetOf(formula.source, fault.line, fault.column);
  const marked = [...formula.source.slice(start)].slice(0, Math.max(1, fault.length)).join("");
  return { start: formula.start + start, end: formula.start + start + marked.length };
}

// The line and the column of an offset, both from 1.
export function placeOf(text, offset) {
  const before = text.slice(0, offset).split("\n");
  return { line: before.length, column: [...before[before.length - 1]].length + 1 };
}
