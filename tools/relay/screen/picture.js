// The picture: stations down, rounds across. Each station has a block: a line with its broadcasts and their ends, and
// under it a row for each station that it may hear. Only what is in view is drawn.

const LEFT = 104; // of the rounds; the names of the rows stand before
const TOP = 26; // of the blocks; the numbers of the rounds stand above
const RIGHT = 24;
const STEPS = [1, 2, 5, 10, 20, 50, 100, 200, 500];
const FONT = "'DejaVu Sans', Verdana, Arial, sans-serif";

// Okabe and Ito's colours, or near them. In both carriers' plan a bar's height and place tell its carrier too.
export const COLOURS = {
  window: "#56b4e9", first: "#56b4e9", second: "#e69f00", both: "#0072b2", broadcast: "#009e73", open: "#8a939c",
  end: "#111111", firstEnd: "#0072b2", secondEnd: "#a65f00", relay: "#d55e00", cursor: "#000000", pull: "#cc79a7",
  paper: "#ffffff", even: "#f3f4f6", grid: "#dfe2e6", text: "#222222", faint: "#444444",
};
const CARRIER = [null, COLOURS.first, COLOURS.second, COLOURS.both]; // by who has the hearing, 1 and 2 added up
const NARROW = 3; // pixels a round, below which a row is drawn as a strip

// A colour as a pixel of an image has it, and none.
const pixel = (colour) => {
  const [red, green, blue] = [1, 3, 5].map((at) => parseInt(colour.slice(at, at + 2), 16));
  return new Uint32Array(new Uint8Array([red, green, blue, 255]).buffer)[0];
};
const STRIP = [0, pixel(COLOURS.window)]; // by whether it is heard
const STRIPS = [1, 2].map((half) => CARRIER.map((colour, kind) => (kind & half ? pixel(colour) : 0))); // upper, lower

export class Picture {
  constructor(canvas, scroller, size) {
    this.canvas = canvas;
    this.scroller = scroller;
    this.size = size;
    this.column = 8; // pixels a round
    this.plan = null; // the plan shown
    this.carriers = null; // both carriers' plans, where they are shown together
    this.last = []; // the round of each station's last end
    this.part = null; // the ends in some rounds, and of each carrier alone
    this.partAlone = [];
    this.relay = null; // the question and the answer that are shown
    this.picked = null; // a sender and a k
    this.cursor = { row: 0, round: 1 };
    this.pull = null; // a window that is being pulled open
    this.waiting = false;
    this.fitted = null;
    this.strip = document.createElement("canvas");
    scroller.addEventListener("scroll", () => this.later());
  }

  // Layout.

  get n() {
    return this.plan.n;
  }

  get row() {
    return this.n <= 6 ? 13 : 10;
  }

  get lane() {
    return this.carriers ? 38 : 26;
  }

  get block() {
    return this.lane + this.row * (this.n - 1) + 8;
  }

  // Fits what can be scrolled to the plan, where it has changed.
  fit() {
    const fitted = [this.n, this.plan.rounds, this.block].join();
    if (fitted !== this.fitted) this.resize();
    this.fitted = fitted;
  }

  // Fits the canvas into the view, and what can be scrolled to the plan.
  resize() {
    if (this.plan) {
      this.size.style.width = `${LEFT + this.column * this.plan.rounds + RIGHT}px`;
      this.size.style.height = `${TOP + this.block * this.n}px`;
    }
    const { clientWidth: width } = this.scroller;
    const height = Math.min(this.scroller.clientHeight, this.size.offsetHeight);
    const scale = window.devicePixelRatio || 1;
    if (this.canvas.width !== Math.round(width * scale) || this.canvas.height !== Math.round(height * scale)) {
      this.canvas.style.width = `${width}px`;
      this.canvas.style.height = `${height}px`;
      this.canvas.width = Math.round(width * scale);
      this.canvas.height = Math.round(height * scale);
    }
    this.later();
  }

  // The rounds in view.
  view() {
    if (!this.plan?.rounds) return [1, 0];
    const first = Math.floor(this.scroller.scrollLeft / this.column) + 1;
    const wide = Math.ceil((this.scroller.clientWidth - LEFT) / this.column);
    return [Math.max(1, Math.min(first, this.plan.rounds)), Math.max(1, Math.min(first + wide, this.plan.rounds))];
  }

  // The stations in view, and one more on each side.
  stations() {
    const above = Math.floor(this.scroller.scrollTop / this.block) - 1;
    const below = Math.floor((this.scroller.scrollTop + this.scroller.clientHeight - TOP) / this.block) + 1;
    return [...Array(this.n).keys()].filter((station) => station >= above && station <= below);
  }

  x(round) {
    return LEFT + this.column * (round - 1) - this.scroller.scrollLeft;
  }

  middle(round) {
    return round === 0 ? this.x(1) : this.x(round) + this.column / 2;
  }

  top(station) {
    return TOP + this.block * station - this.scroller.scrollTop;
  }

  laneMiddle(station) {
    return this.top(station) + this.lane / 2;
  }

  rowTop(station, heard) {
    return this.top(station) + this.lane + this.row * (heard - (heard > station));
  }

  // Zooms so that the round under a place of the view stays there.
  zoom(column, at = LEFT) {
    const round = (this.scroller.scrollLeft + at - LEFT) / this.column;
    this.column = column;
    this.resize();
    this.scroller.scrollLeft = round * column - (at - LEFT);
    this.later();
  }

  // Zooms so that all rounds are in view, if they can be.
  whole() {
    const room = this.scroller.clientWidth - LEFT - RIGHT;
    this.zoom(Math.min(64, Math.max(0.5, room / Math.max(1, this.plan.rounds))));
    this.scroller.scrollLeft = 0;
  }

  goTo(round) {
    this.scroller.scrollLeft = this.column * (round - 1);
  }

  // Scrolls just so far that a round of a row can be seen.
  reveal(station, round, height = this.lane) {
    const { scroller } = this;
    const left = this.x(round) - LEFT - this.column;
    const right = this.x(round) + 2 * this.column - scroller.clientWidth;
    if (left < 0) scroller.scrollLeft += left;
    else if (right > 0) scroller.scrollLeft += right;
    const above = this.top(station) - TOP;
    const below = this.top(station) + height - scroller.clientHeight;
    if (above < 0) scroller.scrollTop += above;
    else if (below > 0) scroller.scrollTop += below;
  }

  // Rows: of each station its line, then those of the others by number.

  rowAt(row) {
    const station = Math.floor(row / this.n);
    const other = (row % this.n) - 1;
    return { station, heard: other < 0 ? null : other + (other >= station) };
  }

  // What stands at a place of the canvas: a station; whom it hears in that row, null for its line; a round, null for
  // the names at the left.
  hit(x, y) {
    if (!this.plan || y < TOP) return null;
    const down = y - TOP + this.scroller.scrollTop;
    const station = Math.floor(down / this.block);
    if (station >= this.n) return null;
    const inside = down - station * this.block - this.lane;
    const other = Math.floor(inside / this.row);
    const heard = inside < 0 || other >= this.n - 1 ? null : other + (other >= station);
    if (x >= LEFT && x >= this.x(this.plan.rounds + 1)) return null;
    return { station, heard, round: x < LEFT ? null : this.roundAt(x) };
  }

  // The round at a place of the canvas, or the nearest.
  roundAt(x) {
    const round = Math.floor((x - LEFT + this.scroller.scrollLeft) / this.column) + 1;
    return Math.max(1, Math.min(this.plan.rounds, round));
  }

  // The broadcast of a station that runs in a round, or null where its ends are not known yet.
  broadcastAt(station, round) {
    const { part } = this;
    if (!part?.ends[station] || round < part.first || round > part.last) return null;
    return part.before[station] + part.ends[station].filter((end) => end < round).length + 1;
  }

  // Drawing.

  later() {
    if (this.waiting) return;
    this.waiting = true;
    requestAnimationFrame(() => {
      this.waiting = false;
      this.draw();
    });
  }

  draw() {
    const { clientWidth: width, clientHeight: height } = this.scroller;
    const scale = this.canvas.width / Math.max(1, width);
    const paint = this.canvas.getContext("2d");
    paint.setTransform(scale, 0, 0, scale, 0, 0);
    paint.fillStyle = COLOURS.paper;
    paint.fillRect(0, 0, width, height);
    if (!this.plan) return;
    const stations = this.stations();
    for (const station of stations) this.drawBlock(paint, station, width);
    this.drawGrid(paint, height);
    for (const station of stations) this.drawWindows(paint, station);
    for (const station of stations) this.drawLane(paint, station, width);
    if (this.pull) this.drawPull(paint);
    if (this.relay) this.drawRelay(paint);
    if (document.activeElement === this.canvas) this.drawCursor(paint);
    this.drawNames(paint, stations, height);
    this.drawAxis(paint, width);
  }

  drawBlock(paint, station, width) {
    paint.fillStyle = station % 2 ? COLOURS.even : COLOURS.paper;
    paint.fillRect(0, this.top(station), width, this.block);
  }

  // The rounds that have a number on the axis.
  numbered() {
    const step = STEPS.find((one) => one * this.column >= 38) ?? STEPS.at(-1);
    const [first, last] = this.view();
    const found = [];
    for (let round = Math.ceil(first / step) * step; round <= last; round += step) found.push(round);
    return found;
  }

  drawGrid(paint, height) {
    paint.fillStyle = COLOURS.grid;
    for (const round of this.numbered()) paint.fillRect(Math.round(this.middle(round)), TOP, 1, height - TOP);
    const end = this.x(this.plan.rounds + 1);
    paint.fillStyle = COLOURS.open;
    paint.fillRect(Math.round(end), TOP, 1, height - TOP);
  }

  // Who has a hearing: 1 for the first carrier, 2 for the second, 3 for both; of one plan alone 1.
  carrying(hearer, heard, round) {
    if (!this.carriers) return this.plan.hears(hearer, heard, round);
    const { carriers } = this; // past its end a plan has no mask, and nobody hears
    return carriers[0].hears(hearer, heard, round) + 2 * carriers[1].hears(hearer, heard, round);
  }

  // Where several rounds share a pixel, what is heard in one of them is shown.
  drawWindows(paint, station) {
    const [first, last] = this.view();
    const shared = Math.max(1, Math.floor(1 / this.column));
    const begin = first - ((first - 1) % shared);
    for (let heard = 0; heard < this.n; heard++) {
      const y = this.rowTop(station, heard);
      if (heard === station || y > this.scroller.clientHeight || y + this.row < TOP) continue;
      const kinds = new Uint8Array(Math.max(0, Math.ceil((last - begin + 1) / shared)));
      for (let round = begin; round <= last; round++) {
        kinds[Math.floor((round - begin) / shared)] |= this.carrying(station, heard, round);
      }
      if (this.column < NARROW) this.drawStrip(paint, kinds, this.x(begin), this.column * shared, y + 1);
      else this.drawRow(paint, kinds, this.x(begin), y + 1);
    }
  }

  // The bars of a row, kind by kind: a change of colour takes longer than a bar.
  drawRow(paint, kinds, x, y) {
    const bars = [null, [], [], []]; // by kind: the left and the width of each
    for (let at = 0; at < kinds.length; at++) {
      const since = at;
      while (at + 1 < kinds.length && kinds[at + 1] === kinds[since]) at++;
      if (kinds[since]) bars[kinds[since]].push(x + this.column * since, this.column * (at + 1 - since));
    }
    for (const kind of [1, 2, 3]) this.drawBars(paint, kind, bars[kind], y);
  }

  // A row of narrow columns, as an image of one line for its upper half and one for its lower half: there may be a
  // thousand bars in it.
  drawStrip(paint, kinds, x, wide, y) {
    if (kinds.length === 0) return;
    const [upper, lower] = this.carriers ? STRIPS : [STRIP, STRIP];
    const image = new ImageData(kinds.length, 2);
    const pixels = new Uint32Array(image.data.buffer);
    for (let at = 0; at < kinds.length; at++) {
      pixels[at] = upper[kinds[at]];
      pixels[kinds.length + at] = lower[kinds[at]];
    }
    this.strip.width = kinds.length;
    this.strip.height = 2;
    this.strip.getContext("2d").putImageData(image, 0, 0);
    paint.imageSmoothingEnabled = false;
    paint.drawImage(this.strip, x, y, wide * kinds.length, this.row - 3);
  }

  drawBars(paint, kind, bars, y) {
    const half = this.carriers && kind !== 3;
    const high = (this.row - 3) / (half ? 2 : 1);
    const gap = this.column >= 6 ? 1 : 0;
    paint.fillStyle = this.carriers ? CARRIER[kind] : COLOURS.window;
    for (let at = 0; at < bars.length; at += 2) {
      paint.fillRect(bars[at], y + (half && kind === 2 ? high : 0), bars[at + 1] - gap, high);
    }
  }

  drawLane(paint, station, width) {
    const y = this.laneMiddle(station);
    const within = (x) => Math.max(LEFT, Math.min(width, x));
    const [begin, end] = [within(this.x(1)), within(this.x(this.plan.rounds + 1))];
    const done = this.last[station] ? within(this.middle(this.last[station])) : begin;
    paint.fillStyle = COLOURS.open;
    paint.fillRect(done, y - 0.75, end - done, 1.5);
    paint.fillStyle = COLOURS.broadcast;
    paint.fillRect(begin, y - 2, done - begin, 4);
    if (!this.part?.ends[station]) return;
    this.drawEnds(paint, this.part.ends[station], y - 9, 18, COLOURS.end, this.column >= 4 ? 2.4 : 1);
    this.drawNumbers(paint, station, y);
    const [one, two] = this.partAlone;
    if (one?.ends[station]) this.drawEnds(paint, one.ends[station], y - 18, 7, COLOURS.firstEnd, 2);
    if (two?.ends[station]) this.drawEnds(paint, two.ends[station], y + 11, 7, COLOURS.secondEnd, 2);
  }

  drawEnds(paint, ends, y, tall, colour, wide) {
    paint.fillStyle = colour;
    const origin = this.middle(1);
    const right = this.scroller.clientWidth;
    for (const round of ends) {
      const x = origin + this.column * (round - 1);
      if (x > LEFT - 2 && x < right + 2) paint.fillRect(x - wide / 2, y, wide, tall);
    }
  }

  // The number of each broadcast, where there is room for it.
  drawNumbers(paint, station, y) {
    const { first, before, ends } = this.part;
    paint.font = `10px ${FONT}`;
    paint.fillStyle = COLOURS.faint;
    paint.textAlign = "center";
    const origin = this.x(1) - this.column / 2; // the middle of round 0, if it was drawn like the others
    const right = this.scroller.clientWidth;
    let since = before[station] ? first - 1 : 0.5;
    ends[station].forEach((round, at) => {
      const x = origin + (this.column * (since + round)) / 2;
      const roomy = this.column * (round - since) > 24;
      if (roomy && x > LEFT && x < right) paint.fillText(before[station] + at + 1, x, y - 4);
      since = round;
    });
    if (this.picked?.sender === station) {
      paint.strokeStyle = COLOURS.relay;
      paint.lineWidth = 2;
      const [from, to] = this.extent(station, this.picked.k);
      paint.strokeRect(Math.max(LEFT + 1, from), y - 11, to - Math.max(LEFT + 1, from), 22);
    }
  }

  // From where to where a broadcast runs, as far as it is in view.
  extent(station, k) {
    const { first, last, before, ends } = this.part;
    const at = k - 1 - before[station];
    const since = at < 1 ? first - 1 : ends[station][at - 1];
    return [this.middle(since), this.middle(ends[station][at] ?? last)];
  }

  drawPull(paint) {
    const { hearer, heard, from, to } = this.pull;
    paint.fillStyle = COLOURS.pull;
    paint.fillRect(this.x(from), this.rowTop(hearer, heard) + 1, this.column * (to - from + 1), this.row - 3);
  }

  // The relay of the chosen answer: from the sender's line into the rows in which it is heard, and to the next line.
  relayPoints() {
    const { question: [sender], answer: { start, hops } } = this.relay;
    const points = [[this.middle(start), this.laneMiddle(sender), false]];
    for (const [round, heard, hearer] of hops) {
      points.push([this.middle(round), this.rowTop(hearer, heard) + this.row / 2 - 0.5, true]);
      points.push([this.middle(round), this.laneMiddle(hearer), false]);
    }
    return points;
  }

  drawRelay(paint) {
    if (this.relay.answer.start === null) return;
    const points = this.relayPoints();
    paint.save();
    paint.beginPath();
    paint.rect(LEFT - 6, TOP - 6, this.scroller.clientWidth, this.scroller.clientHeight);
    paint.clip();
    for (const [colour, wide] of [[COLOURS.paper, 6], [COLOURS.relay, 3]]) {
      paint.strokeStyle = colour;
      paint.lineWidth = wide;
      paint.setLineDash(this.relay.answer.error ? [6, 4] : []);
      paint.beginPath();
      points.forEach(([x, y], at) => (at ? paint.lineTo(x, y) : paint.moveTo(x, y)));
      paint.stroke();
    }
    paint.setLineDash([]);
    points.forEach(([x, y, hop], at) => {
      paint.beginPath();
      if (hop) paint.arc(x, y, 5, 0, 2 * Math.PI);
      else paint.rect(x - 4.5, y - 4.5, 9, 9);
      paint.fillStyle = at === 0 || at === points.length - 1 ? COLOURS.relay : COLOURS.paper;
      paint.fill();
      paint.strokeStyle = COLOURS.relay;
      paint.lineWidth = 2.5;
      paint.stroke();
    });
    paint.restore();
  }

  drawCursor(paint) {
    const { station, heard } = this.rowAt(this.cursor.row);
    const line = [this.top(station) + 1, this.lane - 2];
    const [y, high] = heard === null ? line : [this.rowTop(station, heard) - 1, this.row + 1];
    paint.strokeStyle = COLOURS.cursor;
    paint.lineWidth = 2;
    paint.strokeRect(this.x(this.cursor.round) - 1, y, Math.max(4, this.column + 1), high);
  }

  drawNames(paint, stations, height) {
    paint.fillStyle = COLOURS.paper;
    paint.fillRect(0, 0, LEFT - 4, height);
    for (const station of stations) {
      paint.fillStyle = station % 2 ? COLOURS.even : COLOURS.paper;
      paint.fillRect(0, this.top(station), LEFT - 4, this.block);
      paint.fillStyle = COLOURS.text;
      paint.textAlign = "left";
      paint.font = `bold 12px ${FONT}`;
      paint.fillText(`station ${station}`, 6, this.laneMiddle(station) + 4);
      paint.textAlign = "right";
      paint.font = `${Math.min(10, this.row - 1)}px ${FONT}`;
      paint.fillStyle = COLOURS.faint;
      for (let heard = 0; heard < this.n; heard++) {
        if (heard !== station) paint.fillText(`hears ${heard}`, LEFT - 10, this.rowTop(station, heard) + this.row - 3);
      }
    }
  }

  drawAxis(paint, width) {
    paint.fillStyle = COLOURS.paper;
    paint.fillRect(0, 0, width, TOP);
    paint.fillStyle = COLOURS.faint;
    paint.font = `11px ${FONT}`;
    paint.textAlign = "center";
    for (const round of this.numbered()) {
      if (this.middle(round) > LEFT) paint.fillText(round, this.middle(round), TOP - 9);
    }
    paint.textAlign = "left";
    paint.fillText("round", 6, TOP - 9);
  }
}
