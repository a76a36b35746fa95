// What is typed, kept behind the # of the page's address, which browsers do not send to the server.

export function linkOf({ source, definitions, isLatex, isDisplay }) {
  const kept = new URLSearchParams({ tex: source });
  if (definitions) kept.set("definitions", definitions);
  if (!isLatex) kept.set("syntax", "plain");
  if (!isDisplay) kept.set("style", "text");
  return "#" + kept;
}

// What the present address keeps, or null.
export function kept() {
  const words = new URLSearchParams(location.hash.slice(1));
  if (!words.has("tex")) return null;
  return {
    source: words.get("tex"),
    definitions: words.get("definitions") ?? "",
    isLatex: words.get("syntax") !== "plain",
    isDisplay: words.get("style") !== "text",
  };
}
