// The text area with underlined ranges, and the list of faults below it.
import { placeOf } from "./source.js";

const source = document.getElementById("source");
const definitions = document.getElementById("definitions");
const underlines = document.getElementById("underlines");
const list = document.getElementById("faults");

// Draws the ranges of `faults` under the text. A fault at the end of the text has an underlined blank.
function underline(faults) {
  const text = source.value;
  const parts = [];
  let at = 0;
  for (const { start, end } of faults) {
    if (start < at) continue;
    const mark = document.createElement("mark");
    mark.textContent = text.slice(start, end).replaceAll("\n", "") || "\u00a0";
    parts.push(text.slice(at, start), mark);
    at = end > start && text[end - 1] === "\n" ? end - 1 : end;
  }
  parts.push(text.slice(at) + "\n");
  underlines.replaceChildren(...parts);
  underlines.scrollTop = source.scrollTop;
}

function item(fault) {
  const area = fault.isInDefinitions ? definitions : source;
  const { line, column } = placeOf(area.value, fault.start);
  const button = document.createElement("button");
  button.type = "button";
  button.textContent = `${fault.isInDefinitions ? "definitions, " : ""}line ${line}, column ${column}: ${fault.text}`;
  button.addEventListener("click", () => {
    area.closest("details")?.setAttribute("open", "");
    area.focus();
    area.setSelectionRange(fault.start, fault.end);
  });
  const entry = document.createElement("li");
  entry.append(button);
  return entry;
}

// Shows faults, each with `start`, `end` and `text`, in the order of the text. Those in the definitions are listed.
export function showFaults(faults) {
  underline(faults.filter((fault) => !fault.isInDefinitions));
  list.replaceChildren(...faults.map(item));
  source.setAttribute("aria-invalid", String(faults.length > 0));
}

source.addEventListener("scroll", () => {
  underlines.scrollTop = source.scrollTop;
});
new ResizeObserver(() => {
  underlines.style.height = `${source.offsetHeight}px`;
}).observe(source);
