// A tour of six steps for who opens the page first. It takes no key and no click from the page, and
// goes away when something else is done before its second step. After it was closed the address
// ends in #no-tour, and opens without it.
import { $, all, choose, on, put } from "./dom.js";

export const NO_TOUR = "#no-tour";

export class Tour {
  steps = all("#tour-steps li");
  at = 0;

  constructor() {
    on("tour-open", "click", (event) => {
      event.stopPropagation();
      $("help-box").close();
      this.go(0);
      $("tour-next").focus();
    });
    on("tour-next", "click", () => this.go(this.at + 1));
    on("tour-back", "click", () => this.go(this.at - 1));
    on("tour-close", "click", () => this.go(-1));
    document.addEventListener("keydown", ({ key }) => {
      if (key === "Escape" && !$("tour").hidden) this.go(-1);
    });
    for (const name of ["click", "input"]) {
      document.addEventListener(name, ({ target }) => {
        if (this.at === 0 && !$("tour").contains(target)) this.show(undefined);
      });
    }
  }

  go(at) {
    this.at = at;
    this.show(this.steps[at]);
    if (!this.steps[at] && window.location.hash === "") window.history.replaceState(null, "", NO_TOUR);
  }

  show(step) {
    for (const framed of all(".toured")) framed.classList.remove("toured");
    if (!step && $("tour").contains(document.activeElement)) $("step").focus();
    $("tour").hidden = !step;
    if (!step) return;
    for (const other of this.steps) other.hidden = other !== step;
    put($("tour-title"), `Tour, ${this.at + 1} of ${this.steps.length}`);
    put($("tour-next"), this.at + 1 < this.steps.length ? "Next" : "Done");
    $("tour-back").disabled = this.at === 0;
    const { part, tab } = step.dataset;
    if (tab) choose(tab);
    $(part).classList.add("toured");
    $(part).scrollIntoView({ block: "nearest" });
  }
}
