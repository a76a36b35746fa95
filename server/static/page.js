// The page: draws the formulas of the text area each time it changes.
import { showFaults } from "./editor.js";
import { kept, linkOf } from "./link.js";
import { pngFile, save, saveAll, svgFile } from "./save.js";
import * as server from "./server.js";
import { formulasOf, rangeOf } from "./source.js";

const element = (id) => document.getElementById(id);
const source = element("source");
const definitions = element("definitions");
const display = element("display");
const shown = element("pictures");
const state = element("state");

// Milliseconds without a key before the formulas are sent.
const PAUSE = 60;
let timer = 0;
let running = null;
let results = [];

const isLatex = () => document.querySelector("input[name=syntax]:checked").value === "latex";

function request(formulas, more = {}) {
  return {
    formulas: formulas.map((formula) => ({ source: formula.source, display: display.checked })),
    definitions: definitions.value,
    latex: isLatex(),
    ...more,
  };
}

// The element of a picture. The page's policy refuses attributes `style`, so they are set here.
function pictureOf(result) {
  const text = result.svg.replace(/^(<svg[^>]*?) style="[^"]*"/, "$1");
  const root = new DOMParser().parseFromString(text, "image/svg+xml").documentElement;
  if (root.localName !== "svg") throw new Error("the server sent no picture");
  const picture = document.importNode(root, true);
  picture.style.verticalAlign = `${-result.depth_ex}ex`;
  picture.style.overflow = "visible";
  return picture;
}

function showPictures() {
  results.forEach((result, at) => {
    const place = shown.children[at] ?? shown.appendChild(document.createElement("div"));
    place.setAttribute("role", "listitem");
    place.className = "formula";
    place.classList.toggle("display", display.checked);
    place.classList.toggle("faulty", !result.svg);
    if (result.svg) place.replaceChildren(pictureOf(result));
  });
  while (shown.children.length > results.length) shown.lastChild.remove();
}

// A fault in the definitions is the fault of each formula, and is listed once.
function faultsOf(formulas) {
  const first = results.find((result) => result.fault?.in === "definitions")?.fault;
  if (first) {
    const range = rangeOf({ start: 0, source: definitions.value }, first);
    return [{ ...range, text: first.text, isInDefinitions: true }];
  }
  return formulas.flatMap((formula, at) => {
    const fault = results[at].fault;
    return fault ? [{ ...rangeOf(formula, fault), text: fault.text }] : [];
  });
}

function tell(text) {
  state.textContent = text;
  document.body.dataset.state = "shown";
}

async function draw() {
  running?.abort();
  const mine = (running = new AbortController());
  const formulas = formulasOf(source.value);
  const began = performance.now();
  try {
    const answer = formulas.length ? await server.pictures(request(formulas), mine.signal) : [];
    if (mine !== running) return;
    results = answer;
    showPictures();
    showFaults(faultsOf(formulas));
    tell(`${(performance.now() - began).toFixed(0)} ms`);
  } catch (error) {
    if (error.name !== "AbortError") tell(error.message);
  }
}

function keepLink() {
  element("link").href = linkOf({
    source: source.value,
    definitions: definitions.value,
    isLatex: isLatex(),
    isDisplay: display.checked,
  });
}

function changed() {
  document.body.dataset.state = "waiting";
  showFaults([]);
  keepLink();
  clearTimeout(timer);
  timer = setTimeout(draw, PAUSE);
}

// The pictures of the formulas without a fault, as files show them: with their size in points.
async function filePictures() {
  const answer = await server.pictures(request(formulasOf(source.value), { unit: "pt" }));
  return answer.filter((result) => result.svg).map((result) => result.svg);
}

function onClick(id, action) {
  element(id).addEventListener("click", async () => {
    try {
      await action();
    } catch (error) {
      tell(error.message);
    }
  });
}

onClick("save-svg", async () => {
  await saveAll((await filePictures()).map(svgFile), "svg");
});
onClick("save-png", async () => {
  await saveAll(await Promise.all((await filePictures()).map(pngFile)), "png");
});
onClick("save-dvi", async () => {
  const formulas = formulasOf(source.value).filter((_, at) => results[at]?.svg);
  save(await server.dvi(request(formulas)), "formulas.dvi");
});

function fill({ source: text, definitions: own, isLatex: latex, isDisplay }) {
  source.value = text;
  definitions.value = own;
  element("own").open = own !== "";
  document.querySelector(`input[name=syntax][value=${latex ? "latex" : "plain"}]`).checked = true;
  display.checked = isDisplay;
  changed();
}

async function loadExamples() {
  const examples = await (await fetch("/static/examples.json")).json();
  const choice = element("examples");
  examples.forEach((example, at) => choice.add(new Option(example.name, String(at))));
  choice.addEventListener("change", () => {
    const example = examples[Number(choice.value)];
    if (choice.value === "") return;
    choice.value = "";
    fill({ source: example.source, definitions: example.definitions ?? "", isLatex: example.latex, isDisplay: true });
    source.focus();
  });
}

source.addEventListener("input", changed);
definitions.addEventListener("input", changed);
document.querySelectorAll("input").forEach((input) => input.addEventListener("change", changed));
addEventListener("hashchange", () => {
  const words = kept();
  if (words) fill(words);
});
loadExamples().catch((error) => tell(error.message));
fill(kept() ?? { source: "x=\\frac{-b\\pm\\sqrt{b^2-4ac}}{2a}", definitions: "", isLatex: true, isDisplay: true });
