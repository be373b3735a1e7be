// Small helps for elements.
export const $ = (id) => /** @type {any} */ (document.getElementById(id));
export const all = (selector, within = document) => /** @type {any[]} */ ([...within.querySelectorAll(selector)]);
export const on = (id, event, work) => $(id).addEventListener(event, work);

// Characters that turn the direction of what follows are seen as what they are.
export const TURNS = /[\u202a-\u202e\u2066-\u2069]/g;
export const nameOfTurn = (letter) => `[U+${letter.charCodeAt(0).toString(16).toUpperCase().padStart(4, "0")}]`;
export const seen = (text) => (typeof text === "string" ? text.replace(TURNS, nameOfTurn) : text);
export const tenths = (number) => Math.round(10 * number) / 10;

// A child that is a text stays a text. Numbers have a tenth at most.
export function furnished(element, given, children) {
  for (const [key, value] of Object.entries(given)) {
    if (typeof value === "function") element.addEventListener(key, value);
    else if (typeof value === "number") element.setAttribute(key, tenths(value));
    else if ((value ?? false) !== false) element.setAttribute(key, value === true ? "" : seen(value));
  }
  element.append(...children.map(seen));
  return element;
}

export const make = (name, given = {}, ...children) => furnished(document.createElement(name), given, children);

export function put(element, given) {
  const text = seen(given);
  if (element.textContent !== text) element.textContent = text;
}

export function mark(element, name, value) {
  if (element.getAttribute(name) !== String(value)) element.setAttribute(name, value);
}

export const isPressed = (id) => $(id).getAttribute("aria-pressed") === "true";

// Shows a part of the page, where the window is too narrow for all.
export function choose(name) {
  $("main").dataset.tab = name;
  for (const tab of all("#tabs button")) mark(tab, "aria-pressed", tab.dataset.tab === name);
}

// How far an event is from the left of an element, as a part of its width.
export function partOf(element, { clientX }) {
  const { left, width } = element.getBoundingClientRect();
  return (clientX - left) / width;
}

// The button to which the tab key comes; one is kept, at first that of a row.
const stopIn = (box) => box.querySelector("button[tabindex='0']");

export function keepStop(box, row = box) {
  const button = stopIn(box) || row.querySelector("button");
  if (button) button.tabIndex = 0;
  return button;
}

export const stepOf = (key, page) => ({
  ArrowUp: -1, ArrowLeft: -1, ArrowDown: 1, ArrowRight: 1, PageUp: -page, PageDown: page, Home: -1e9, End: 1e9,
})[key];

// How dark each of some numbers is.
export function heats(numbers) {
  const most = Math.log(1 + Math.max(1, ...numbers));
  return (number) => (Math.log(1 + number) / most).toFixed(2);
}

export const between = (least, number, most) => Math.max(least, Math.min(most, number));

export function walks(id, page) {
  on(id, "keydown", (event) => {
    const [step, buttons] = [stepOf(event.key, page), all("button", $(id))];
    if (!step || buttons.length === 0) return;
    event.preventDefault();
    const old = stopIn($(id));
    const next = buttons[between(0, buttons.indexOf(old) + step, buttons.length - 1)];
    if (old) old.tabIndex = -1;
    next.tabIndex = 0;
    next.focus();
  });
}

export function saved(text, type, name) {
  const link = make("a", { href: URL.createObjectURL(new Blob([text], { type })), download: name });
  link.click();
  setTimeout(() => URL.revokeObjectURL(link.href), 60000);
}

// By the command of all browsers, since not each page may use the clipboard that newer ones have.
export function copied(text) {
  const give = (event) => {
    event.clipboardData.setData("text/plain", text);
    event.preventDefault();
  };
  document.addEventListener("copy", give);
  const isDone = document.execCommand("copy");
  document.removeEventListener("copy", give);
  return isDone;
}

// In the next frame, since to alter a size in the same one is an error.
export function onResize(element, work) { new ResizeObserver(() => requestAnimationFrame(work)).observe(element); }

// The rows of a list by their keys. A row whose key is still there keeps its element, and the focus
// in it. If the focus was in a row that is gone, it goes to the box.
export function keepRows(box, items, keyOf, create, update) {
  const keys = new Set(items.map((item) => String(keyOf(item))));
  const gone = [...box.children].filter((row) => !keys.has(row.dataset.key));
  const isLost = gone.some((row) => row.contains(document.activeElement));
  for (const row of gone) row.remove();
  const rows = new Map([...box.children].map((row) => [row.dataset.key, row]));
  let at = box.firstElementChild;
  for (const item of items) {
    const key = String(keyOf(item));
    const row = rows.get(key) || create(item);
    row.dataset.key = key;
    if (row === at) at = at.nextElementSibling;
    else box.insertBefore(row, at);
    update(row, item);
  }
  if (isLost) (keepStop(box) || box.closest("[tabindex]") || box).focus();
}

// The size of a box in which a picture is drawn, and of its letters.
export function sizeOf(box, lines = 8) {
  const em = 0.85 * parseFloat(window.getComputedStyle(document.documentElement).fontSize);
  return { width: Math.max(box.clientWidth, 200), height: Math.max(box.clientHeight, lines * em), em };
}

// Some names, and how many more there are.
export function listed(names, most) {
  const more = names.length - most;
  return `${names.slice(0, most).join(", ")}${more > 0 ? `, and ${more} more` : ""}`;
}

export const fourDigits = (cell) => String(cell).padStart(4, "0");

// "1 row", "2 rows", "12,000 rows".
export const counted = (count, thing) => `${count.toLocaleString("en")} ${thing}${count === 1 ? "" : "s"}`;
