// The beginning: what the page needs is in it, in blocks that `assemble` has put there.
import { App } from "./app.js";
import { bytesOfBlock, textOfBlock } from "./bundle.js";
import { Check } from "./check.js";
import { grammarOf } from "./colours.js";
import { $, all, make } from "./dom.js";
import { IN_FRAME, Keep } from "./keep.js";
import { Machine } from "./machine.js";
import { fillCard, takeTables } from "./operations.js";
import { NO_TOUR, Tour } from "./tour.js";

async function begin() {
  const names = ["worker", "lessons", "grammar", "operations", "characters", "library", "cases"];
  const texts = names.map((name) => textOfBlock(`${name}-block`));
  const module = await bytesOfBlock("engine-block");
  const [worker, lessons, grammar, operations, characters, library, cases] = await Promise.all(texts);
  takeTables(operations, characters);
  document.head.append(make("script", {}, library)); // the policy of the page names it by its sum
  const app = new App(new Machine(worker, module), grammarOf(JSON.parse(grammar)));
  const told = (reason) => setTimeout(() => app.store.tell(`The page itself has a fault: ${reason}`, true));
  window.addEventListener("unhandledrejection", ({ reason }) => told(reason));
  window.addEventListener("error", ({ message }) => told(message));
  fillCard();
  for (const title of all("dialog h2")) title.autofocus = true; // in HTML it would be refused in a frame
  const check = new Check(app.store, app.listing, JSON.parse(cases));
  const [keep, tour] = [new Keep(app, JSON.parse(lessons), check), new Tour()];
  if (await keep.openLink()) return;
  await keep.openLesson(keep.lessons[0]);
  if (!IN_FRAME && window.location.hash !== NO_TOUR) tour.go(0);
}

begin().catch((reason) => {
  $("did").textContent = `This browser can't show the page (${reason}). It has to be one of 2024 or later.`;
});
