// Requests to the server that gave this page.

async function post(path, body, signal) {
  const response = await fetch(path, {
    method: "POST",
    headers: { "Content-Type": "application/json" },
    body: JSON.stringify(body),
    signal,
  });
  if (response.ok) return response;
  const answer = await response.json().catch(() => null);
  throw new Error(answer?.error?.text ?? `the server answers ${response.status}`);
}

// The results of formulas, in their order: each has its picture and its measures, or its fault.
export async function pictures(request, signal) {
  return (await (await post("/svg", request, signal)).json()).formulas;
}

// The DVI file of formulas, a page each.
export async function dvi(request) {
  return (await post("/dvi", request)).blob();
}
