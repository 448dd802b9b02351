// A plan on the page: its masks, the bits that are windows, and edits that can be undone. Mask i of round u, from 1 on,
// stands at place n (u - 1) + i.

export function decode(text) {
  const bytes = atob(text);
  const log = new Uint16Array(bytes.length / 2);
  for (let at = 0; at < log.length; at++) log[at] = bytes.charCodeAt(2 * at) | (bytes.charCodeAt(2 * at + 1) << 8);
  return log;
}

export function encode(log) {
  const bytes = new Uint8Array(2 * log.length);
  for (let at = 0; at < log.length; at++) {
    bytes[2 * at] = log[at] & 255;
    bytes[2 * at + 1] = log[at] >> 8;
  }
  let text = "";
  for (let at = 0; at < bytes.length; at += 8192) text += String.fromCharCode.apply(null, bytes.subarray(at, at + 8192));
  return btoa(text);
}

export class Plan {
  constructor(name, n, log) {
    this.name = name;
    this.n = n;
    this.log = log;
    this.text = null; // the masks encoded, until the next edit
  }

  static read(found) {
    return new Plan(found.name, found.n, decode(found.log));
  }

  get rounds() {
    return this.log.length / this.n;
  }

  hears(hearer, heard, round) {
    return (this.log[this.n * (round - 1) + hearer] >> heard) & 1;
  }

  // The first and the last round of the window around a round in which the station hears the other.
  windowAround(hearer, heard, round) {
    let first = round;
    let last = round;
    while (first > 1 && this.hears(hearer, heard, first - 1)) first--;
    while (last < this.rounds && this.hears(hearer, heard, last + 1)) last++;
    return [first, last];
  }

  // The windows that lie in these rounds, or reach into them, whole.
  windows(hearer, heard, from, to) {
    const found = [];
    for (let round = from; round <= to; round++) {
      if (this.hears(hearer, heard, round)) {
        const [first, last] = this.windowAround(hearer, heard, round);
        found.push([first, last]);
        round = last;
      }
    }
    return found;
  }

  // Sets or clears the hearings of some rounds, and gives the masks that were there: pairs of a place and a mask.
  put(hearer, heard, from, to, on) {
    const before = [];
    for (let round = from; round <= to; round++) {
      const at = this.n * (round - 1) + hearer;
      const mask = on ? this.log[at] | (1 << heard) : this.log[at] & ~(1 << heard);
      if (mask !== this.log[at]) before.push([at, this.log[at]]);
      this.log[at] = mask;
    }
    this.text = null;
    return before;
  }

  // Puts masks back, and gives those that were there.
  restore(masks) {
    const before = masks.map(([at]) => [at, this.log[at]]);
    for (const [at, mask] of masks) this.log[at] = mask;
    this.text = null;
    return before;
  }

  forCall() {
    this.text ??= encode(this.log);
    return { name: this.name, n: this.n, log: this.text };
  }
}

// What was edited, to be undone and done again. A step has for each plan the masks to be put back.
export class Edits {
  constructor() {
    this.done = [];
    this.undone = [];
  }

  add(step) {
    if (step.every((masks) => masks.length === 0)) return;
    this.done.push(step);
    this.undone = [];
  }

  move(from, to, plans) {
    const step = from.pop();
    if (step) to.push(step.map((masks, at) => plans[at].restore(masks)));
    return step !== undefined;
  }

  undo(plans) {
    return this.move(this.done, this.undone, plans);
  }

  redo(plans) {
    return this.move(this.undone, this.done, plans);
  }
}
