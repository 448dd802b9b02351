// What the page shows and what is picked, and what all of its parts use.

import { Fault } from "./calls.js";
import { Picture } from "./picture.js";
import { Edits } from "./plan.js";

export const BOTH = "both";
export const at = (name) => document.getElementById(name);
export const picture = new Picture(at("picture"), at("scroll"), at("size"));

export const state = {
  plans: [], // of the carriers, as edited
  show: 0, // a carrier, or both
  edits: new Edits(),
  questions: [],
  answered: [], // the questions of the last answers
  answers: [],
  chosen: null, // the question that is shown
  found: null, // the last answer of the server
  version: 0, // of plans and questions: an answer to an older one is dropped
  editedAt: null,
  lost: false, // the last call was refused, or not answered
};

// The plan that the picture has; while both carriers' plan is merged anew that is the one before.
export function shown() {
  return picture.plan;
}

export function say(words) {
  at("said").textContent = words;
}

export function showFault(place, words) {
  place.textContent = words;
  place.hidden = !words;
}

// Runs what may be refused, and shows the words.
export async function trying(act) {
  try {
    await act();
    return true;
  } catch (wrong) {
    if (!(wrong instanceof Fault)) throw wrong;
    showFault(at("fault"), wrong.message);
    return false;
  }
}

// What a call is given of the plans.
export function given(more = {}) {
  return { plans: state.plans.map((plan) => plan.forCall()), show: state.show, ...more };
}

// The numbers in some fields.
export function numbers(...names) {
  return names.map((name) => Number(at(name).value));
}
