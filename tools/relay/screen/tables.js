// The tables beside the picture: what it shows as text, for reading and for those who do not see it.

const MOST_WINDOWS = 200; // rows of the table of windows
const MOST_ENDS = 100; // in the words on a station's ends

export function counted(count, noun) {
  return `${count} ${noun}${count === 1 ? "" : "s"}`;
}

function cell(name, content, kind) {
  const element = document.createElement(name);
  if (kind) element.className = kind;
  element.append(content);
  return element;
}

function row(...cells) {
  const element = document.createElement("tr");
  element.append(...cells);
  return element;
}

// Fills a table's body: rows that are as they were stay, by their keys. Where a row goes that has the focus, the one in
// its place gets it.
function refill(body, keys, make) {
  const active = document.activeElement;
  const held = active?.closest("tr");
  const index = [...body.rows].indexOf(held);
  const which = index < 0 ? 0 : [...held.querySelectorAll("button")].indexOf(active);
  keys.forEach((key, at) => {
    const old = body.rows[at];
    if (old?.key === key) return;
    const fresh = make(at);
    fresh.key = key;
    if (old) old.replaceWith(fresh);
    else body.append(fresh);
  });
  while (body.rows.length > keys.length) body.rows[keys.length].remove();
  if (index < 0 || active.isConnected) return;
  body.rows[Math.min(index, keys.length - 1)]?.querySelectorAll("button")[which]?.focus();
}

function heading(words) {
  const element = cell("th", words);
  element.scope = "col";
  return element;
}

function button(words, label, act) {
  const element = document.createElement("button");
  element.type = "button";
  element.textContent = words;
  element.setAttribute("aria-label", label);
  element.addEventListener("click", act);
  return element;
}

// The relay of an answer in words.
export function relayWords([sender], answer) {
  if (answer.start === null) return "the broadcast does not start in this plan";
  const begins = `starts at ${sender} in round ${answer.start}`;
  const hops = answer.hops.map(([round, heard, hearer]) => `${hearer} hears ${heard} in round ${round}`);
  return [begins, ...hops, ...(answer.round === null ? ["and no relay arrives"] : [])].join(", ");
}

export function fillQuestions(body, questions, answers, chosen, show, remove) {
  const keys = questions.map((question, at) => JSON.stringify([question, answers[at], at === chosen]));
  refill(body, keys, (at) => {
    const question = questions[at];
    const answer = answers[at];
    const name = `sender ${question[0]}, receiver ${question[1]}, k ${question[2]}`;
    const showing = button("Show", `Show ${name}`, () => show(at));
    showing.setAttribute("aria-pressed", at === chosen);
    const acts = cell("td", showing);
    acts.append(" ", button("Remove", `Remove ${name}`, () => remove(at)));
    const words = cell("td", relayWords(question, answer), "words");
    if (answer.error) words.append(" ", cell("strong", `Error: ${answer.error}.`, "error"));
    const numbers = [...question, answer.round ?? "never"].map((one) => cell("td", String(one)));
    const element = row(...numbers, words, acts);
    if (at === chosen) element.className = "picked";
    return element;
  });
}

// The forecast; with two plans also that of each alone, and how many ends more both together bring.
export function fillForecast(table, found, both) {
  const heads = ["Station", "Ends", "Last in round"];
  if (both) {
    heads.push("First alone: ends", "last in round", "gained", "Second alone: ends", "last in round", "gained");
  }
  const { ends, last } = found.forecast;
  const rows = ends.map((count, station) => [station, count, last[station] || "-", ...(both ? found.alone : []).flatMap(
    (alone) => [alone.ends[station], alone.last[station] || "-", gained(count - alone.ends[station])])]);
  refill(table.tHead, [String(both)], () => row(...heads.map(heading)));
  refill(table.tBodies[0], rows.map(String), (station) => {
    const name = cell("th", String(station));
    name.scope = "row";
    return row(name, ...rows[station].slice(1).map((one) => cell("td", String(one))));
  });
}

function gained(count) {
  return count > 0 ? `+${count}` : String(count);
}

// The windows of a station in some rounds, with a button each that takes it away. Gives how many were left out.
export function fillWindows(body, plan, station, from, to, remove) {
  const found = [];
  for (let heard = 0; heard < plan.n; heard++) {
    if (heard !== station) found.push(...plan.windows(station, heard, from, to).map((one) => [heard, ...one]));
  }
  const shown = found.slice(0, MOST_WINDOWS);
  refill(body, shown.map((one) => String([station, ...one])), (at) => {
    const [heard, first, last] = shown[at];
    const label = `Take away: station ${station} hears ${heard}, rounds ${first} to ${last}`;
    const act = button("Take away", label, () => remove(station, heard, first, last));
    return row(...shown[at].map((one) => cell("td", String(one))), cell("td", act));
  });
  return found.length - shown.length;
}

// The ends of a station in the rounds in view in words, as far as they are known; with two plans the k-th end under each
// alone beside it.
export function endWords(station, part, partAlone, view) {
  const [first, last] = [Math.max(view[0], part.first), Math.min(view[1], part.last)];
  if (!part.ends[station] || last < first) return "";
  const passed = part.ends[station].filter((round) => round < first).length;
  const ends = part.ends[station].slice(passed).filter((round) => round <= last);
  const where = `rounds ${first} to ${last}`;
  if (ends.length === 0) return `Station ${station} ends no broadcast in ${where}.`;
  const number = (at) => part.before[station] + passed + at + 1;
  const alone = (at) => partAlone.map((one, which) => {
    const round = one.ends[station]?.[number(at) - one.before[station] - 1];
    return `${which ? "second" : "first"} alone ${round ?? "not in view"}`;
  });
  const words = (round, at) => (partAlone.length ? `${round} (${alone(at).join(", ")})` : String(round));
  const shown = ends.slice(0, MOST_ENDS).map(words).join(", ");
  const count = counted(ends.length, "broadcast");
  const more = ends.length > MOST_ENDS ? ` and ${ends.length - MOST_ENDS} more: zoom in to see them` : "";
  return `Station ${station} ends ${count} in ${where}, from number ${number(0)} on, in rounds ${shown}${more}.`;
}
