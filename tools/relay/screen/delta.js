// Delta of the plan from a round on. When nothing has changed for a while the library is asked whether it agrees.

import { call } from "./calls.js";
import { at, given, numbers, state, trying } from "./state.js";
import { counted } from "./tables.js";

const REST = 2000; // milliseconds

export async function findDelta() {
  const [from, waiting] = numbers("now", "waiting");
  const version = state.version;
  clearTimeout(findDelta.check);
  showCheck("");
  await trying(async () => {
    const found = await call("delta", given({ from, waiting }));
    if (version !== state.version) return;
    at("delta").textContent = found.delta === null
      ? `From round ${found.from} on there is no Δ: the rest of the plan has no relay between some two stations.`
      : `Δ from round ${found.from} on is ${counted(found.delta, "round")}.`;
    showBound(found);
    clearTimeout(findDelta.check);
    findDelta.check = setTimeout(() => checkDelta(from, version), REST);
  });
}

async function checkDelta(from, version) {
  if (version !== state.version) return;
  await trying(async () => {
    const { objection } = await call("delta-check", given({ from }));
    if (version !== state.version || from !== numbers("now")[0]) return;
    showCheck(objection ? `Error: by the library's answers ${objection}.` : "The library's answers agree.", objection);
  });
}

function showCheck(words, wrong = null) {
  at("delta-check").textContent = words;
  at("delta-check").className = wrong ? "error" : "note";
}

// The bound, where the server gives one.
function showBound(found) {
  at("before-it").hidden = !found.on_air_by;
  at("bound").hidden = !found.on_air_by;
  if (!found.on_air_by) return;
  const when = (round) => (round === null ? "perhaps only after the plan's last round" : `by round ${round}`);
  const [one, two] = found.on_air_by.map(when);
  at("bound").textContent = `An edit posted then is on air everywhere ${one} where its desk alone is in use, `
    + `and ${two} where both desks are.`;
}
