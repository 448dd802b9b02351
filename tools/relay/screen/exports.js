// Exports: what is shown, as files.

import { text } from "./calls.js";
import { at, given, picture, say, state, trying } from "./state.js";

async function save(name, path, more) {
  await trying(async () => {
    const content = new Blob([await text(path, given(more))]);
    const link = document.createElement("a");
    link.href = URL.createObjectURL(content);
    link.download = name;
    link.click();
    setTimeout(() => URL.revokeObjectURL(link.href), 10_000);
    say(`Saved ${name}.`);
  });
}

at("export-script").addEventListener("click", () => save("plan.script", "script"));
at("export-picture").addEventListener("click", () => {
  save("plan.svg", "picture", { questions: picture.relay ? [picture.relay.question] : [] });
});
at("export-forecast").addEventListener("click", () => save("ends.csv", "forecast.csv"));
at("export-answers").addEventListener("click", () => save("answers.csv", "answers.csv", { questions: state.answered }));
