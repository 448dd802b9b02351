// The legend under the picture: a sample of each mark, with its words.

import { COLOURS } from "./picture.js";

// One entry of the legend: its words, and a sample drawn by a function.
function entry(words, draw) {
  const item = document.createElement("li");
  const sample = document.createElement("canvas");
  const scale = window.devicePixelRatio || 1;
  sample.width = 30 * scale;
  sample.height = 18 * scale;
  sample.style.width = "30px";
  sample.style.height = "18px";
  sample.setAttribute("aria-hidden", "true");
  const paint = sample.getContext("2d");
  paint.scale(scale, scale);
  draw(paint);
  item.append(sample, words);
  return item;
}

function filled(colour, ...rectangles) {
  return (paint) => {
    paint.fillStyle = colour;
    for (const one of rectangles) paint.fillRect(...one);
  };
}

export function legend(both) {
  const bars = both
    ? [entry("heard over both carriers", filled(COLOURS.both, [2, 4, 26, 10])),
      entry("over the first alone (upper half)", filled(COLOURS.first, [2, 4, 26, 5])),
      entry("over the second alone (lower half)", filled(COLOURS.second, [2, 9, 26, 5])),
      entry("end under the first alone (above)", filled(COLOURS.firstEnd, [14, 0, 2, 7])),
      entry("end under the second alone (below)", filled(COLOURS.secondEnd, [14, 11, 2, 7]))]
    : [entry("link window: the station hears that of the row", filled(COLOURS.window, [2, 4, 26, 10]))];
  return [
    entry("broadcast, and its end", (paint) => {
      filled(COLOURS.broadcast, [2, 7, 22, 4])(paint);
      filled(COLOURS.end, [23, 0, 2.4, 18])(paint);
    }),
    entry("broadcast that does not end in the plan", filled(COLOURS.open, [2, 8, 26, 1.5])),
    ...bars,
    entry("relay of the chosen answer", (paint) => {
      filled(COLOURS.relay, [2, 8, 26, 3], [0, 5, 8, 8])(paint);
      paint.beginPath();
      paint.arc(22, 9.5, 5, 0, 2 * Math.PI);
      paint.fillStyle = COLOURS.paper;
      paint.fill();
      paint.strokeStyle = COLOURS.relay;
      paint.lineWidth = 2.5;
      paint.stroke();
    }),
  ];
}
