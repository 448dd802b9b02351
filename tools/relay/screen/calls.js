// The calls to the server: JSON there and back.

export class Fault extends Error {}

async function answered(path, options) {
  let response;
  try {
    response = await fetch(path, options);
  } catch {
    throw new Fault("The server does not answer: is ./relay screen still running?");
  }
  if (response.ok) return response;
  let words = `The server answers with status ${response.status}.`;
  try {
    words = (await response.json()).fault;
  } catch { /* no JSON: the status has to do */ }
  throw new Fault(words);
}

function posted(path, given) {
  const headers = { "Content-Type": "application/json" };
  return answered(path, { method: "POST", headers, body: JSON.stringify(given) });
}

export async function namedPlans() {
  return (await (await answered("plans")).json()).plans;
}

export async function readPlan(file) {
  const path = `read?name=${encodeURIComponent(file.name)}`;
  return (await answered(path, { method: "POST", body: file })).json();
}

export async function call(name, given) {
  return (await posted(name, given)).json();
}

export async function text(name, given) {
  return (await posted(name, given)).text();
}
