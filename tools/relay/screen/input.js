// Mouse and keys on the picture.

// `page` has what they do: shown() is the plan; act(place) is a click; put(hearer, heard, from, to, on) sets or clears
// a window; pick(null) drops what was picked; describe(place) is words, which say(words) shows; zoomBy(steps, where)
// zooms.
export function listen(picture, page) {
  const { canvas, scroller } = picture;
  let pressed = null; // where the mouse went down

  function place(event) {
    const box = canvas.getBoundingClientRect();
    return picture.hit(event.clientX - box.left, event.clientY - box.top);
  }

  function inWindow({ station, heard, round }) {
    return page.shown().hears(station, heard, round);
  }

  // Beside a window the mouse pulls one open.
  function down(event) {
    if (event.button !== 0 || !page.shown()) return;
    pressed = place(event);
    if (!pressed || pressed.heard === null || pressed.round === null || inWindow(pressed)) return;
    const { station, heard, round } = pressed;
    picture.pull = { hearer: station, heard, begun: round, from: round, to: round };
    canvas.setPointerCapture(event.pointerId);
  }

  function move(event) {
    const { pull } = picture;
    if (!pull) {
      const found = page.shown() && place(event);
      canvas.title = found ? page.describe(found) : "";
      return;
    }
    const round = picture.roundAt(event.clientX - canvas.getBoundingClientRect().left);
    pull.from = Math.min(pull.begun, round);
    pull.to = Math.max(pull.begun, round);
    picture.later();
  }

  function up(event) {
    const { pull } = picture;
    const began = pressed;
    picture.pull = null;
    pressed = null;
    if (!began || !page.shown()) return;
    if (pull) {
      page.put(pull.hearer, pull.heard, pull.from, pull.to, true);
      return;
    }
    const found = place(event);
    if (found && found.station === began.station && found.heard === began.heard) page.act(began);
  }

  function moveCursor(rows, rounds) {
    const { cursor, n, plan } = picture;
    cursor.row = Math.max(0, Math.min(n * n - 1, cursor.row + rows));
    cursor.round = Math.max(1, Math.min(plan.rounds, cursor.round + rounds));
    const found = under();
    picture.reveal(found.station, cursor.round, picture.block);
    page.say(page.describe(found));
    picture.later();
  }

  function under() {
    return { ...picture.rowAt(picture.cursor.row), round: picture.cursor.round };
  }

  function drop() {
    page.pick(null);
    page.say("Nothing is picked.");
  }

  function key(event) {
    if (!picture.plan?.rounds || event.altKey || event.metaKey || event.ctrlKey) return;
    const many = event.shiftKey ? 10 : 1;
    const { n, plan } = picture;
    const keys = {
      ArrowUp: () => moveCursor(-many, 0),
      ArrowDown: () => moveCursor(many, 0),
      ArrowLeft: () => moveCursor(0, -many),
      ArrowRight: () => moveCursor(0, many),
      PageUp: () => moveCursor(-n, 0),
      PageDown: () => moveCursor(n, 0),
      Home: () => moveCursor(0, -plan.rounds),
      End: () => moveCursor(0, plan.rounds),
      Enter: () => page.act(under()),
      " ": () => page.act(under()),
      Escape: drop,
      "+": () => page.zoomBy(1),
      "=": () => page.zoomBy(1),
      "-": () => page.zoomBy(-1),
    };
    if (!(event.key in keys)) return;
    event.preventDefault();
    keys[event.key]();
  }

  function wheel(event) {
    if (!event.ctrlKey) return;
    event.preventDefault();
    page.zoomBy(event.deltaY < 0 ? 1 : -1, event.clientX - canvas.getBoundingClientRect().left);
  }

  canvas.addEventListener("pointerdown", down);
  canvas.addEventListener("pointermove", move);
  canvas.addEventListener("pointerup", up);
  canvas.addEventListener("keydown", key);
  canvas.addEventListener("focus", () => picture.later());
  canvas.addEventListener("blur", () => picture.later());
  scroller.addEventListener("wheel", wheel, { passive: false });
}
