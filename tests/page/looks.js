// What the tests look at in the page, and what they do there in a person's place. `Page.js` in browser.py calls these functions by their names.
const one = (selector) => document.querySelector(selector);
const all = (selector) => [...document.querySelectorAll(selector)];
const byId = (id) => document.getElementById(id);
const place = (element) => (typeof element === "string" ? one(element) : element).getBoundingClientRect();
const editor = () => one("#listing .CodeMirror").CodeMirror;
const fire = (element, name, given = {}) => element.dispatchEvent(new MouseEvent(name, { bubbles: true, ...given }));
const point = (element, right, down) => fire(element, "mousemove", { clientX: place(element).left + right, clientY: place(element).top + down });
const numbers = (element, ...names) => names.map((name) => Number(element.getAttribute(name)));
const timeField = () => numbers(one("#map .field"), "x", "width");
const timeBoxes = () => all("#map path.bar").flatMap((path) => [...path.getAttribute("d").matchAll(/M([\d.]+) ([\d.]+)h([\d.]+)v([\d.]+)/g)])
  .map((found) => found.slice(1).map(Number));
const changeAt = (x) => Math.round((x - timeField()[0]) / timeField()[1] * 11); // of eleven changes
const hides = (box) => /auto|scroll/.test(getComputedStyle(box).overflowY) && box.scrollHeight > box.clientHeight;

const looks = {
  // Anything
  isIdle: () => Boolean(one("main")) && one("main").getAttribute("aria-busy") === "false",
  texts: (selector) => all(selector).map((element) => element.textContent),
  given: (selector, name) => all(selector).map((element) => element.getAttribute(name) ?? ""),
  rows: (selector) => all(selector).map((row) => [...row.children].map((part) => part.textContent)),
  said: (name) => ["title", "desc"].map((part) => one(`#${name} svg ${part}`).textContent),
  isOpen: (id) => byId(id).open,
  open: (id, isOpen = true) => { byId(id).open = isOpen; },
  openAll: () => { for (const box of all("details")) box.open = !box.hidden; },
  closeDialogs: () => { for (const box of all("dialog[open]")) box.close(); },
  focus: (selector) => one(selector).focus(),
  blur: () => document.activeElement.blur(),
  active: () => { const { activeElement: e } = document; return e.id || e.getAttribute("aria-label") || e.textContent.trim().slice(0, 30) || e.tagName; },
  letter: (selector) => parseFloat(getComputedStyle(one(selector)).fontSize),
  display: (selector) => getComputedStyle(one(selector)).display,
  top: (id) => place(byId(id)).top,
  overflow: () => { const e = document.documentElement; return [e.scrollWidth - e.clientWidth, e.scrollHeight - e.clientHeight]; },
  lowButtons: (selector, least) => all(selector).filter((b) => b.offsetParent && place(b).height < least).map((b) => b.id || b.getAttribute("aria-label")),
  inView(element, inside) {
    const [box, { bottom: bar }] = [place(element), place("#time")];
    const { top, bottom } = inside ? place(inside) : { top: 0, bottom: innerHeight };
    return box.height > 0 && box.top >= Math.max(top, bar) - 1 && box.bottom <= Math.min(bottom, innerHeight) + 1;
  },
  // Scrolls the boxes with a scroll bar and the page until the foot of an element is seen; what is there if not the element.
  reached(element) {
    for (let box = element.parentElement; box && box !== document.body; box = box.parentElement) {
      if (!hides(box)) continue;
      const [outer, inner] = [place(box), place(element)];
      const [foot, least] = [outer.top + box.clientHeight, outer.top + Math.min(inner.height, 12)];
      if (inner.bottom > foot || inner.bottom < least) box.scrollTop += inner.bottom - foot + 2;
    }
    const { bottom: bar } = place("#time");
    if (place(element).bottom > innerHeight) scrollBy(0, place(element).bottom - innerHeight + 2);
    else if (place(element).bottom < bar + 8) scrollBy(0, place(element).bottom - bar - 40);
    const { left, right, bottom, height } = place(element);
    const there = height > 0 && document.elementFromPoint(left + Math.min(20, (right - left) / 2), bottom - Math.min(3, height / 2));
    const isThere = there && (element.contains(there) || (there.contains(element) && there.matches("tr, li, p, pre, section")));
    return isThere ? "" : `${Math.round(bottom)} of ${innerHeight}: ${there ? there.outerHTML.slice(0, 80) : "nothing"}`;
  },
  reachedLast(selector) {
    const shown = all(selector).filter((row) => row.getClientRects().length);
    return shown.length ? looks.reached(shown[shown.length - 1]) : "is not there";
  },
  offCentre: (...parts) => { const [a, b] = parts.map((part) => place(`#bars svg ${part}`)); return Math.abs(a.left + a.width / 2 - b.left - b.width / 2); },

  // The whole page
  state() {
    window.dispatchEvent(new Event("beforeprint"));
    const [registers, flags, ...boxes] = ["register-rows", "flags", "papers", "unit-list"].map(byId);
    const parts = [...flags.children].flatMap((flag) => [...flag.children].map((part) => part.textContent));
    return [registers.textContent, parts.join("\n"), ...boxes.map((box) => box.textContent), byId("moment").value, ...looks.texts("#printed tr > :nth-child(4)")];
  },
  log: () => all("#log p").map((p) => [p.textContent, p.nextElementSibling.textContent]),
  lessonNumber: (name) => all("#lessons option").find((option) => option.dataset.name === name).value,
  lesson: () => [byId("lessons").selectedOptions[0]].map((option) => [option.dataset.name, option.textContent])[0],
  chooseLesson: (number) => { byId("lessons").value = String(number); byId("lessons").dispatchEvent(new Event("change", { bubbles: true })); },
  bring(id) {
    const element = byId(id), box = element.closest("#picture > details"), part = element.closest("[data-of]");
    if (element.closest(".menu")) byId("ways").open = true;
    if (box) box.open = true;
    const tab = part && one(`#tabs [data-tab=${part.dataset.of}]`);
    if (tab && !part.offsetParent) tab.click();
  },
  put(id, text) {
    byId(id).focus();
    byId(id).value = text;
    byId(id).dispatchEvent(new Event("input", { bubbles: true }));
  },
  slide(moment, ends) {
    byId("slider").value = moment;
    for (const name of ["input", ...(ends ? ["change"] : [])]) byId("slider").dispatchEvent(new Event(name, { bubbles: true }));
  },
  dragAndChoose(moment, lesson) {
    looks.slide(moment, false);
    looks.chooseLesson(lesson);
  },
  isAsked: () => Boolean(byId("leave") && byId("leave").open),
  openBox: () => looks.given("#picture > details[open]", "id")[0],
  openLesson: () => { if (byId("read").offsetParent && byId("read").getAttribute("aria-pressed") === "false") byId("read").click(); },
  dialog() {
    const box = one("dialog[open]");
    return [box.scrollWidth <= box.clientWidth, place(box).right <= innerWidth, [...box.querySelectorAll(".check input")].every((each) => each.offsetWidth < 20)];
  },
  stops: () => { byId("log").scrollTop = 0; looks.blur(); },

  // Parts of it
  hits: (word) => { getSelection().removeAllRanges(); let hits = 0; while (hits < 9 && window.find(word, true, false, false)) hits += 1; return hits; },
  buttonRows: () => all("dialog[open] .row.end").map((row) => new Set([...row.querySelectorAll("button")].map((b) => Math.round(place(b).bottom))).size),
  label: (id) => byId(id).labels[0].textContent.trim(),
  labels: (...ids) => ids.map((id) => byId(byId(id).getAttribute("aria-labelledby")).textContent),
  order() { // what the tab key does not go to as one reads: column by column
    const parts = ["notes", "source", "registers", "memory"].map(byId).filter((part) => part.offsetHeight > 0);
    const at = (part) => [Math.round(place(part).left / 100), place(part).top, place(part).left];
    const seen = [...parts].sort((a, b) => { const [p, q] = [at(a), at(b)]; return (Math.abs(p[1] - q[1]) < 4 ? p[2] - q[2] : 0) || p[0] - q[0] || p[1] - q[1]; });
    const goes = [...parts].sort((a, b) => (a.compareDocumentPosition(b) & 4 ? -1 : 1));
    return goes.filter((part, at) => part !== seen[at]).map((part) => part.id).join(" ");
  },
  stageIsLast: () => [one(".machine").compareDocumentPosition(byId("stage")) & 4, place("#stage").top >= place(".machine").bottom],
  helpBegins: () => [byId("help-box").scrollTop, document.activeElement.id],
  isAtHand: (element) => element.closest("dialog, header, #time") !== null,
  answer: () => [byId("answer")].flatMap((box) => [box.open, box.querySelectorAll("p").length > 0, box.textContent.includes("`")]),
  signs: () => looks.texts("#unit-list pre").map((words) => words.match(/[+-]/g).length),
  colours: (...names) => names.map((name) => getComputedStyle(document.documentElement).getPropertyValue(`--${name}`).trim()),
  shades: () => ["color", "backgroundColor"].map((name) => getComputedStyle(document.documentElement)[name].match(/\d+/g).slice(0, 3).map(Number)), // ink, ground
  shownOnPaper: () => ["printed", "listing"].map((id) => byId(id).getClientRects().length > 0),
  paper: (id) => [byId(id).textContent, byId(id).scrollWidth - byId(id).clientWidth],
  tour() {
    const shown = all("#tour-steps li").filter((step) => !step.hidden), framed = one(".toured"), { left, right, top, bottom } = place("#tour");
    const isInside = left >= 0 && right <= innerWidth && top >= 0 && bottom <= innerHeight;
    return [byId("tour-title").textContent, shown.length, shown[0].textContent.length > 60, Boolean(framed) && place(framed).height > 0, isInside];
  },
  turned() { // whether a character that turns a text is in the page, and the fields that have one
    const turns = /[\u202a-\u202e\u2066-\u2069]/, fields = all("input, textarea").filter((field) => field.id !== "text");
    return [turns.test(document.body.outerHTML.replace(/ cm-text="[^"]*"/g, "")), fields.filter(({ value }) => turns.test(value)).map(({ id }) => id)];
  },
  isSorted: (selector) => looks.texts(selector).map(Number).every((number, at, all) => at === 0 || all[at - 1] <= number),
  stepsRead: () => new Set(window.told.filter((text) => text.startsWith("Did "))).size,
  rowsInView(...selectors) { // how many rows of each are seen
    const isSeen = (row) => {
      const { top, bottom, left } = place(row), there = bottom > top && document.elementFromPoint(left + 20, (top + bottom) / 2);
      return there && (row.contains(there) || (there.contains(row) && there !== document.body && there.closest(".CodeMirror")));
    };
    return selectors.map((selector) => all(selector).filter(isSeen).length);
  },

  // The source
  text: () => editor().getValue(),
  cursor: () => [editor().getCursor().line + 1, editor().getCursor().ch],
  selected: () => editor().getSelection(),
  caret: (line, letter) => { editor().focus(); editor().setCursor(line - 1, letter); },
  paste(text) {
    const cm = editor(), old = cm.getValue(), least = Math.min(text.length, old.length);
    let [head, tail] = [0, 0];
    while (head < least && text[head] === old[head]) head += 1;
    while (tail < least - head && text[text.length - 1 - tail] === old[old.length - 1 - tail]) tail += 1;
    cm.focus();
    cm.replaceRange(text.slice(head, text.length - tail), cm.posFromIndex(head), cm.posFromIndex(old.length - tail), "paste");
  },
  pointAtLine: (line) => point(all("#listing .CodeMirror-line")[line - 1], 20, 8),
  pointAtOperation(line) {
    const row = all("#listing .CodeMirror-line")[line - 1], word = row.querySelector(".cm-support");
    point(word, 3, 5);
    return byId("listing").title;
  },
  atFault: () => { editor().scrollTo(0, 0); byId("wrong-text").firstChild.focus(); },
  faultIsWhole: () => [byId("wrong-text").firstChild].flatMap((e) => [e.scrollWidth <= e.clientWidth + 1, e.textContent]),
  room: () => Math.floor((editor().getScrollInfo().clientWidth - editor().getGutterElement().offsetWidth) / editor().defaultCharWidth()),
  apart: () => Math.max(...all(".line").map((row, at) => Math.abs(place(row).top - place(all("#listing .CodeMirror-line")[at]).top))),
  coloured(line) {
    editor().scrollIntoView(line - 1);
    const row = all("#listing .CodeMirror-line")[line - 1 - editor().getViewport().from];
    return [...row.querySelectorAll("span > span")].map((word) => [word.textContent, word.className.replace("cm-", "")]);
  },
  cutLines: () => all("#listing .CodeMirror-line").filter((line) => line.scrollWidth > line.clientWidth + 1).length,
  toEnd() {
    for (const name of ["vscrollbar", "scroll"]) one(`#listing .CodeMirror-${name}`).scrollTop = 1e6;
    const last = all("#listing .line").pop();
    return Number(last.firstChild.textContent) === editor().lineCount() && place(last).bottom <= place("#listing").bottom;
  },
  bow() {
    const [bow, from, to] = [".bow", ".left .line", ".at .line"].map(place);
    const isAt = (y, { top, bottom }) => Math.abs(y - (top + bottom) / 2) < 3;
    return [isAt(bow.top, to), isAt(bow.bottom, from), bow.left >= to.left - 2 && bow.right < to.left + 20];
  },
  lineColour: (line) => getComputedStyle(all(".wrong .line").find((row) => Number(row.firstChild.textContent) === line)).color,

  // Registers, cells, tables
  registers: () => all("#register-rows tr").map((row) => [row.dataset.key, row.querySelector(".number").textContent]),
  will: () => all("#register-rows tr, #flags > div, #cell-rows tr").map((row) => [row.dataset.key, row.querySelector(".will").textContent]).filter(([, text]) => text),
  was() {
    return all("td.was span").filter((span) => span.textContent !== "").map((span) => {
      const box = span.closest("#cells-box") || byId("registers"), { right, bottom, width } = place(span), row = place(span.closest("tr"));
      const edge = place(box).left + box.clientLeft + box.clientWidth;
      return [span.textContent, width > 0 && right <= Math.min(edge, row.right) + 1 && bottom <= row.bottom + 2];
    });
  },
  conflicts() {
    const [note, box] = ["cells-use", "cells-box"].map(byId);
    return all("#cell-rows .conflict").map((row) => [Number(row.dataset.cell), note.textContent.split(": ").pop(),
      row.querySelector(".unseen").textContent.includes("conflict"), place(note).height > 0 && place(row).height > 0 && place(row.lastChild).right <= place(box).right]);
  },
  firstCell: () => [one("#cell-rows tr").dataset.cell, byId("cells-box").scrollTop],
  changedTabs: () => all("#tabs button").filter((tab) => getComputedStyle(tab, "::after").content.includes("●")).map((tab) => tab.dataset.tab),
  outside: (selector, box) => all(selector).map(place).filter((e) => e.height > 0 && !(e.bottom <= place(box).bottom && e.right <= place(box).right)).length,
  markNumber() {
    const number = one("#register-rows .number");
    getSelection().selectAllChildren(number);
    number.click();
    getSelection().removeAllRanges();
  },
  lineHeat: () => all("#listing .line").map((row) => [row.style.getPropertyValue("--heat"), (/, (\d+) times/.exec(row.firstChild.getAttribute("aria-label")) || [])[1]]),
  cellHeat: () => all("#cell-rows tr").map((row) => [row.style.getPropertyValue("--heat"), row.title, row.querySelector("th").textContent.slice(4)]),
  tints: () => ["#listing .CodeMirror-code > div:nth-child(4) .times", "#cell-rows tr:first-child .number"].map((name) => getComputedStyle(one(name), "::after"))
    .map((style) => (style.content === "none" ? null : Number(style.opacity).toFixed(2))),
  wrongSymbols: () => all("#symbol-rows .wrong").map((row) => [row.firstChild.textContent, row.lastChild.textContent]),
  compared: (name) => all("#compare-rows tr").filter((row) => row.firstChild.textContent.startsWith(name)).map((row) => [...row.children].slice(1).map((part) => part.textContent)),
  papers: () => ["papers", "other-papers"].map((id) => all(`#${id} .paper div`).map((row) => [row.textContent, row.classList.contains("differs")])),
  printed: () => { window.dispatchEvent(new Event("beforeprint")); return all("#printed tr").map((row) => [1, 3].map((at) => row.children[at].textContent)); },

  // Pictures
  bars: () => all("#bars [data-cell]").map((bar) => [Number(bar.dataset.cell), (bar.querySelector(".ink") || { textContent: "" }).textContent,
    ...numbers(bar.querySelector("rect"), "height"), bar.querySelector("rect").getAttribute("class")]),
  arrows: () => all("#bars [data-arrow]").map((arrow) => [arrow.dataset.arrow, arrow.querySelector("text").getAttribute("x")]),
  barPlaces: () => all("#bars [data-cell]").map((bar) => [bar.dataset.cell.padStart(4, "0"), bar.querySelector(".ink, .soft").getAttribute("x")]),
  hollowBars: () => all("#bars .next").map((bar) => [Number(bar.parentNode.dataset.cell), bar.getAttribute("fill")]),
  isBelowAxis: () => all("#bars [data-cell] rect:first-child").map((bar) => numbers(bar, "y")[0] >= numbers(one("#bars .axis"), "y1")[0]),
  stripSize: () => [one("#strip svg").viewBox.baseVal].flatMap(({ width, height }) => [width, height]),
  stripBoxes: () => all("#strip rect.bar").map((bar) => numbers(bar, "x", "y", "width", "height", "fill-opacity")),
  clickStrip: (column) => fire(one("#strip svg"), "click", { clientX: place("#strip svg").left + place("#strip svg").width * column / 60, clientY: place("#strip svg").top + 20 }),
  nodes: () => all("#nodes g[data-cell]").map((node) => [Number(node.dataset.cell), node.querySelector(".ink").textContent, node.querySelector("rect").getAttribute("class")]),
  nodeNames: () => all("#nodes g[data-cell]").flatMap((node) => [...node.querySelectorAll("text.mark")].map((text) => [Number(node.dataset.cell), text.textContent])),
  backLinks: () => all("#nodes path.next").map((path) => Boolean(path.getAttribute("stroke-dasharray"))),
  blocks: () => all(".tape .block").map((block) => (block.getAttribute("aria-label") ?? "end") + (block.matches(".head") ? " ▼" : "")),
  mapBars: () => timeBoxes().map(([x, y, width, height]) => [changeAt(x), Math.round(width / timeField()[1] * 11), Math.round((y - 2) / (height / 0.86))]),
  mapMarks: () => all("#map path.mark").map((path) => changeAt(Number(path.getAttribute("d").split(" ")[1]))),
  mapPresent: () => changeAt(numbers(one("#map .present"), "x1")[0]),
  mapIsInField() {
    const [left, wide] = timeField();
    return timeBoxes().length > 0 && timeBoxes().every(([x, , width]) => x >= left - 0.1 && x + width <= left + wide + 0.2);
  },
  mapOverSlider: () => Math.max(...["left", "right"].map((side) => Math.abs(Math.round(place("#map .field")[side] - place("#slider")[side])))),
  drawMapAnew: () => { one("#map svg").remove(); one(".slide").style.height = "5rem"; },
  writes: () => all("#who-writes button").map((button) => [button.textContent, button.getAttribute("aria-current")]),
  writeIsInView: () => place("#who-writes [aria-current]").top >= place("#who-writes").top && place("#who-writes [aria-current]").bottom <= place("#who-writes").bottom,
  curve: () => [one("#who-values .line").getAttribute("d")].flatMap((path) => [Number(/^M (\d+)/.exec(path)[1]), path.endsWith("H 484")]),
};
