// The page: what is shown, what is picked and edited, and the calls that follow. Every round that it shows comes from
// the server; the page has no rule of its own.

import { call, namedPlans, readPlan } from "./calls.js";
import { findDelta } from "./delta.js";
import "./exports.js";
import { listen } from "./input.js";
import { legend } from "./legend.js";
import { Edits, Plan, decode } from "./plan.js";
import { at, BOTH, given, numbers, picture, say, showFault, shown, state, trying } from "./state.js";
import { counted, endWords, fillForecast, fillQuestions, fillWindows, relayWords } from "./tables.js";

const ROOMY = 2; // pixels a round

// Asking the server.

// What to ask for: the rounds in view and some on both sides, the stations in view, and that of the table. The ends
// under each carrier alone are asked for where there is room for their marks.
function wanted() {
  const [first, last] = picture.view();
  const more = Math.ceil((last - first) / 4) + 8;
  const view = [Math.max(1, first - more), last + more];
  return { view, stations: stationsWanted(), alone: picture.column >= ROOMY };
}

function stationsWanted() {
  return [...new Set([...picture.stations(), Number(at("station").value)])];
}

// Asks again where something in view is not known yet.
function lookAround() {
  const [first, last] = picture.view();
  const { part } = picture;
  const alone = state.show !== BOTH || picture.column < ROOMY || picture.partAlone.length > 0;
  const known = part && first >= part.first && last <= part.last && stationsWanted().every((one) => part.ends[one]);
  if (part && !(known && alone)) look();
}

let busy = false;
let again = false;

// One call at a time; what has changed meanwhile is asked for after it.
async function look() {
  if (state.plans.length === 0) return;
  again = true;
  if (busy) return;
  busy = true;
  try {
    while (again) {
      again = false;
      await lookOnce();
    }
  } finally {
    busy = false;
  }
}

async function lookOnce() {
  const { version, questions } = state;
  const answered = await trying(async () => {
    const found = await call("look", given({ ...wanted(), questions }));
    if (version === state.version) take(found, questions);
  });
  if (answered && state.lost) showFault(at("fault"), "");
  state.lost = !answered;
}

function changed() {
  state.version++;
  return look();
}

function take(found, asked) {
  if (found.question_fault) { // the questions before it stay, and so do the words until the next
    showFault(at("question-fault"), found.question_fault);
    state.questions = state.answered;
    state.chosen = null;
    changed();
    return;
  }
  const fresh = state.answered !== asked && state.chosen !== null;
  state.found = found;
  state.answered = asked;
  state.answers = found.answers;
  const both = state.show === BOTH;
  Object.assign(picture, {
    plan: both ? new Plan("both plans", state.plans[0].n, decode(found.log)) : state.plans[state.show],
    carriers: both ? state.plans : null,
    last: found.forecast.last,
    part: found.part,
    partAlone: found.part_alone,
    relay: relayOf(state.chosen),
  });
  picture.fit();
  picture.draw(); // before the tables, whose layout it would have to wait for
  choose(state.chosen, fresh);
  fillForecast(at("forecast"), found, both);
  took(found.library_ms);
  scrolled(); // the table of one station comes a little later
  clearTimeout(take.delta);
  take.delta = setTimeout(findDelta, 150);
}

// Says how long an edit took, until all is in its place on the page.
function took(library) {
  if (state.editedAt === null) return;
  at("took").getBoundingClientRect();
  const all = performance.now() - state.editedAt;
  state.editedAt = null;
  const [whole, part] = [all, library].map((one) => one.toFixed(1));
  at("took").textContent = `The last edit was answered in ${whole} ms, of which the library took ${part} ms.`;
  Object.assign(at("took").dataset, { all, library });
}

// Plans.

async function open(which, plan) {
  const plans = [...state.plans];
  plans[Math.min(which, plans.length)] = plan;
  const show = plans.length === 2 ? BOTH : 0;
  await call("look", { plans: plans.map((one) => one.forCall()), show, view: [1, 1], questions: [] });
  if (state.plans.length && plans[0].n !== state.plans[0].n) state.questions = [];
  Object.assign(state, { plans, show, edits: new Edits(), chosen: null });
  at("now").value = 0;
  // Until the server has merged them, the picture of both is that of the longer.
  picture.plan = show === BOTH && plans[1].rounds > plans[0].rounds ? plans[1] : plans[0];
  picture.carriers = show === BOTH ? plans : null;
  Object.assign(picture, { part: null, partAlone: [], last: [], relay: null, picked: null });
  picture.cursor = { row: 0, round: 1 };
  showFault(at("fault"), "");
  showPlans();
  picture.resize();
  if (picture.column * picture.plan.rounds < at("scroll").clientWidth) picture.whole();
  showZoom();
  await changed();
}

function showPlans() {
  const { plans } = state;
  const { n } = plans[0];
  const names = plans.map((plan) => `${plan.name} (${counted(plan.rounds, "round")})`).join(" and ");
  at("what").textContent = `${counted(n, "station")}: ${names}`;
  document.title = `${plans.map((plan) => plan.name).join(" + ")} - planning screen`;
  at("shown").hidden = plans.length < 2;
  at("close-second").hidden = plans.length < 2;
  for (const one of document.getElementsByName("show")) one.checked = one.value === String(state.show);
  const stations = Array.from({ length: n }, (_, station) => new Option(String(station), String(station)));
  at("station").replaceChildren(...stations);
  at("legend").replaceChildren(...legend(state.show === BOTH));
  showEdits();
}

function showEdits() {
  at("undo").disabled = state.edits.done.length === 0;
  at("redo").disabled = state.edits.undone.length === 0;
  at("reset").disabled = state.edits.done.length === 0;
}

function setShow(value) {
  state.show = value === BOTH ? BOTH : Number(value);
  picture.carriers = state.show === BOTH ? state.plans : null;
  if (state.show !== BOTH) picture.plan = state.plans[state.show];
  at("legend").replaceChildren(...legend(state.show === BOTH));
  say(`Shown: ${value === BOTH ? "both carriers together" : state.plans[state.show].name}.`);
  changed();
}

// What if.

function edited(words) {
  state.editedAt = performance.now();
  say(words);
  showEdits();
  picture.later();
  return changed();
}

// Puts a window there or takes it away. What is taken from both carriers' plan is taken from each; what is added there
// is added to the first that has these rounds.
function put(hearer, heard, from, to, on) {
  const adding = state.plans.findIndex((plan) => to <= plan.rounds);
  const step = state.plans.map((plan, which) => {
    const mine = state.show === BOTH ? !on || which === adding : which === state.show;
    return mine && from <= plan.rounds ? plan.put(hearer, heard, from, Math.min(to, plan.rounds), on) : [];
  });
  state.edits.add(step);
  const where = from === to ? `round ${from}` : `rounds ${from} to ${to}`;
  const over = on ? `, over the ${["first", "second"][adding]} carrier` : ", over both carriers";
  const words = `${on ? "Added" : "Taken away"}: station ${hearer} hears ${heard} in ${where}`;
  return edited(`${words}${state.show === BOTH ? over : ""}.`);
}

function takeAway(hearer, heard, round) {
  const [first, last] = shown().windowAround(hearer, heard, round);
  return put(hearer, heard, first, last, false);
}

function undo() {
  if (state.edits.undo(state.plans)) edited("Undone.");
}

function redo() {
  if (state.edits.redo(state.plans)) edited("Done again.");
}

function reset() {
  while (state.edits.undo(state.plans));
  edited("The plan is as it was read.");
}

// Questions.

function question(sender, receiver, k) {
  state.chosen = state.questions.length;
  pick(null);
  return asking([...state.questions, [sender, receiver, k]]);
}

function asking(questions) {
  showFault(at("question-fault"), "");
  state.questions = questions;
  return changed();
}

// A question and its answer, or null.
function relayOf(which) {
  const answer = which === null ? undefined : state.answers[which];
  return answer ? { question: state.answered[which], answer } : null;
}

// Shows a question on the picture, or none.
function choose(which, go = true) {
  picture.relay = relayOf(which);
  state.chosen = picture.relay ? which : null;
  fillQuestions(at("questions").tBodies[0], state.answered, state.answers, state.chosen, choose, removeQuestion);
  if (picture.relay && go) tell(picture.relay);
  if (go) picture.later();
}

function tell({ question: asked, answer }) {
  const [sender, receiver, k] = asked;
  const received = answer.round === null ? "never" : `in round ${answer.round}`;
  const error = answer.error ? ` Error: ${answer.error}.` : "";
  say(`Station ${receiver} receives broadcast ${k} of ${sender} ${received}: ${relayWords(asked, answer)}.${error}`);
  if (answer.start === null) return;
  picture.reveal(sender, Math.max(1, answer.start), picture.block);
  const last = answer.hops.at(-1);
  if (last) picture.reveal(last[2], last[0], picture.block);
}

function removeQuestion(which) {
  state.chosen = null;
  asking(state.questions.filter((_, other) => other !== which));
}

function pick(picked) {
  picture.picked = picked;
  if (picked) {
    at("sender").value = picked.sender;
    at("k").value = picked.k;
    say(`Picked: broadcast ${picked.k} of station ${picked.sender}. Now pick the receiver, by a click or by Enter on `
      + "its line. Escape drops the pick.");
  }
  picture.later();
}

// One station, as a table.

function fillStation() {
  const plan = shown();
  if (!plan || !state.found) return;
  const station = Number(at("station").value);
  const [first, last] = picture.view();
  const remove = (hearer, heard, from, to) => put(hearer, heard, from, to, false);
  const left = fillWindows(at("windows").tBodies[0], plan, station, first, last, remove);
  at("more-windows").hidden = left === 0;
  at("more-windows").textContent = `${counted(left, "window")} more: zoom in, or go to other rounds, to see them.`;
  at("station-ends").textContent = endWords(station, state.found.part, state.found.part_alone, [first, last]);
  at("seen").textContent = plan.rounds ? `to ${last} of ${plan.rounds}` : "";
}

function showStation() {
  fillStation();
  lookAround();
}

// The picture: what is at a place, and what a click does there.

function describe({ station, heard, round }) {
  if (round === null) return `Station ${station}.`;
  if (heard !== null) {
    if (!shown().hears(station, heard, round)) return `Round ${round}: station ${station} does not hear ${heard}.`;
    const [first, last] = shown().windowAround(station, heard, round);
    return `Round ${round}: station ${station} hears ${heard}; the window is rounds ${first} to ${last}.`;
  }
  const ended = picture.part?.ends[station]?.includes(round) ? " It ends in this round." : "";
  return `Round ${round}: broadcast ${picture.broadcastAt(station, round) ?? "?"} of station ${station}.${ended}`;
}

function act(place) {
  if (!place) return;
  const { station, heard, round } = place;
  if (round !== null && heard !== null) {
    if (shown().hears(station, heard, round)) takeAway(station, heard, round);
    else put(station, heard, round, round, true);
  } else if (picture.picked) {
    question(picture.picked.sender, station, picture.picked.k);
  } else if (round === null) {
    at("station").value = station;
    showStation();
    say(`Station ${station} is in the table.`);
  } else {
    const k = picture.broadcastAt(station, round);
    if (k !== null) pick({ sender: station, k });
  }
}

// Zoom and scroll.

function zoomTo(column, where) {
  if (!picture.plan) return;
  picture.zoom(column, where);
  showZoom();
}

function showZoom() {
  at("zoom").value = 2 * Math.log2(picture.column);
  at("zoom").setAttribute("aria-valuetext", `${picture.column.toFixed(1)} pixels a round`);
  scrolled();
}

function zoomBy(steps, where) {
  zoomTo(Math.min(64, Math.max(0.5, picture.column * 2 ** (steps / 2))), where);
}

function scrolled() {
  clearTimeout(scrolled.timer);
  scrolled.timer = setTimeout(() => {
    scrolled.timer = null;
    const [first] = picture.view();
    if (document.activeElement !== at("first")) at("first").value = first;
    fillStation();
    lookAround();
  }, 30);
}

scrolled.timer = null;

// What the page listens to.

function submitted(name, act) {
  at(name).addEventListener("submit", (event) => {
    event.preventDefault();
    if (state.plans.length) act();
  });
}

submitted("ask", () => question(...numbers("sender", "receiver", "k")));
submitted("go", () => picture.goTo(...numbers("first")));
submitted("when", findDelta);
submitted("add", () => {
  const [station, heard, from, to] = numbers("station", "heard", "from", "to");
  const { n, rounds } = shown();
  if (heard < n && heard !== station && from >= 1 && from <= to && to <= rounds) put(station, heard, from, to, true);
  else say(`A window is of another station, 0 to ${n - 1}, and of rounds from 1 to ${rounds}.`);
});
for (const one of document.getElementsByName("show")) one.addEventListener("change", () => setShow(one.value));
at("zoom").addEventListener("input", () => zoomTo(2 ** (Number(at("zoom").value) / 2)));
at("whole").addEventListener("click", () => {
  if (!picture.plan) return;
  picture.whole();
  showZoom();
});
at("undo").addEventListener("click", undo);
at("redo").addEventListener("click", redo);
at("reset").addEventListener("click", reset);
at("station").addEventListener("change", showStation);
for (const [name, which] of [["open-first", 0], ["open-second", 1]]) {
  at(name).addEventListener("change", async () => {
    const [file] = at(name).files;
    if (file) await trying(async () => open(which, Plan.read(await readPlan(file))));
    at(name).value = "";
  });
}
at("close-second").addEventListener("click", () => {
  const [first] = state.plans;
  state.plans = [];
  trying(() => open(0, first));
});
at("scroll").addEventListener("scroll", scrolled);
listen(picture, { shown, act, describe, put, pick, say, zoomBy });
document.addEventListener("keydown", (event) => {
  if (!(event.ctrlKey || event.metaKey) || event.key.toLowerCase() !== "z") return;
  if (event.target instanceof HTMLInputElement && event.target.type === "number") return;
  event.preventDefault();
  (event.shiftKey ? redo : undo)();
});
new ResizeObserver(() => {
  picture.resize();
  scrolled();
}).observe(at("scroll"));

await trying(async () => {
  const faults = [];
  for (const [which, found] of (await namedPlans()).entries()) {
    if (found.fault) faults.push(found.fault);
    else await trying(async () => open(which, Plan.read(found)));
  }
  if (faults.length) showFault(at("fault"), faults.join("; "));
});
// For looking into it, by tests too: what is shown, and whether all of it is answered.
window.relayScreen = { picture, state, settled: () => !busy && !picture.waiting && scrolled.timer === null };
document.body.dataset.ready = "yes";
