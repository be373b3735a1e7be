// Pictures of cells as SVG, which can be saved as they are. Their colours are those of the light
// page; in the window the style of the page overrides them.
import { furnished, tenths } from "./dom.js";

const PLACE = "http://www.w3.org/2000/svg";
export const LETTER = 6.7; // the width of a letter
const WIDE = 720; // of a strip
export const THICK = { "stroke-width": 2 };
export const BOLD = { "font-size": 11, "font-weight": "bold" };
const BOLDER = { "font-weight": "bold" };
const BLUE = "#224a69";
const COLOURS = { ink: "#24211c", soft: "#5e5648", bar: BLUE, mark: "#96281c", written: "#f6d98a", will: BLUE };
export const shape = (name, given, ...children) => furnished(document.createElementNS(PLACE, name), given, children);
export const solid = (kind) => ({ class: kind, fill: COLOURS[kind] ?? COLOURS.ink });
export const lined = (kind, colour, more) => ({ class: kind, fill: "none", stroke: COLOURS[colour], ...more });
export const box = (x, y, width, height, more) => shape("rect", { x, y, width, height, ...more });
const upright = (x, y2) => shape("line", { x1: x, x2: x, y1: 0, y2, ...lined("present", "mark", THICK) });
export const label = (x, y, text, kind, more = {}) => {
  return shape("text", { x, y, ...solid(kind), "font-size": 10, "text-anchor": "middle", ...more }, text);
};

export function tipOf(id) {
  const size = { viewBox: "0 0 8 8", refX: 7, refY: 4, markerWidth: 7, markerHeight: 7, orient: "auto" };
  return shape("marker", { id, ...size }, shape("path", { d: "M 0 0 L 8 4 L 0 8 z", ...solid("bar") }));
}

export function picture({ id, title, text, width, height }, shapes) {
  const given = {
    viewBox: `0 0 ${Math.round(width)} ${Math.round(height)}`, width, height, role: "img",
    "aria-labelledby": `${id}-title ${id}-desc`, "font-family": "ui-monospace, Menlo, Consolas, monospace",
  };
  const [named, told] = [shape("title", { id: `${id}-title` }, title), shape("desc", { id: `${id}-desc` }, text)];
  return shape("svg", given, named, told, ...shapes);
}

// How high up numbers are between the least and the largest of some and 0, in so many points.
function scaled(numbers, top, high) {
  const [most, least] = [Math.max(0, ...numbers), Math.min(0, ...numbers)];
  return { most, least, y: (value) => top + (high * (most - value)) / (most - least || 1) };
}

// The number of each run that is not 0, where it begins, and where the next one does.
function runsOf(numbers) {
  const begins = numbers.flatMap((number, at) => (at === 0 || number !== numbers[at - 1] ? [at] : []));
  const runs = begins.map((from, index) => [numbers[from], from, begins[index + 1] ?? numbers.length]);
  return runs.filter(([number]) => number !== 0);
}

// Where bars stand in a box of some size with letters of `em`: `x` of a cell, `y` of a number.
function placesOfBars(bars, arrows, { width, height, em }) {
  const under = Math.max(1, ...arrows.map(({ cell }) => arrows.filter((other) => other.cell === cell).length));
  const left = 6 * em;
  const pitch = Math.min(7.5 * em, (width - left - em) / bars.length);
  const foot = height - (1.2 + 1.1 * under + 0.9) * em;
  const numbers = bars.flatMap(({ value, was, will }) => [value, was, will]);
  const below = numbers.some((number) => number < 0) ? 1.3 * em : 0;
  const { y } = scaled(numbers, 2.4 * em, foot - 3.6 * em - below);
  const middle = (left + width - bars.length * pitch) / 2;
  const first = Math.max(left, middle - left / 2);
  const x = (cell) => first + (cell - bars[0].cell + 0.5) * pitch;
  return { x, y, pitch, foot, em, width, from: first - 3.2 * em };
}

// The way of a value between a register, at the left, and the bar of a cell.
function arcOf({ x, y, from, em }, bars, { cell, isLoad }) {
  const { value, will, was } = bars.find((bar) => bar.cell === cell);
  const [end, tip] = [x(cell) - (isLoad ? 0 : 1.6 * em), y(Math.max(0, value, will, was)) - (isLoad ? 1.4 : 0.8) * em];
  const begin = y(0) - 2 * em;
  const high = (0.5 * em - (begin + tip) / 8) / 0.75; // so its middle is above all bars
  const ends = [[from, begin], [end, tip]];
  const [[x1, y1], [x2, y2]] = isLoad ? ends.reverse() : ends;
  const bends = [(3 * x1 + x2) / 4, high, (x1 + 3 * x2) / 4, high];
  return `M ${Math.round(x1)} ${Math.round(y1)} C ${[...bends, x2, y2].map(Math.round).join(" ")}`;
}

function barOf(places, isTold, bar, name) {
  const { x, y, pitch, foot, em } = places;
  const { cell, value, was, isWritten, will, isNext, text: told } = bar;
  const [left, wide] = [x(cell) - pitch * 0.38, pitch * 0.76];
  const high = (of, more) => box(left, Math.min(y(of), y(0)), wide, Math.abs(y(of) - y(0)), more);
  const look = { ...solid(isWritten ? "written" : "bar"), stroke: isWritten ? COLOURS.ink : "none", "stroke-width": 1 };
  const parts = [high(value, look)];
  const text = (at, words, kind, more) => label(x(cell), at, words, kind, { "font-size": em, ...more });
  if (was !== value) parts.push(high(was, lined("was", "soft", { "stroke-dasharray": "3 2" })));
  if (isNext) parts.push(high(will, lined("next", "bar", { "stroke-width": 3, "stroke-dasharray": "6 4" })));
  const top = Math.min(...[0, value, isWritten ? was : 0].map(y));
  const isUnder = isNext && y(will) < y(Math.max(0, value)) && y(0) - y(value) > 1.5 * em; // the frame is above
  const at = value < 0 ? Math.max(y(value), y(was)) + 1.1 * em : isUnder ? y(value) + 1.2 * em : top - 0.35 * em;
  if (isTold) parts.push(text(at, told, isUnder ? "ink inside" : "ink", isUnder ? { fill: "#ffffff" } : {}));
  const over = Math.min(top, y(will)) - (isUnder ? 0.4 : 1.4) * em;
  if (isNext && isTold) parts.push(text(over, `→ ${bar.willText}`, "will", BOLDER));
  if (name) parts.push(text(foot, name, "soft", { "font-size": 0.8 * em }));
  return shape("g", { "data-cell": cell, "data-part": `cell ${cell}` }, ...parts);
}

// `arrows` have a `name` and a `cell`, perhaps one beside the bars; `conflict` the `cell` that a
// unit uses, and its `use`; `flow` the `cell`, the `register` and its `number` that the next step
// brings together, and `moved` those of the step just done.
export function barsOf({ title, text, bars, arrows, conflict, flow, moved, size, nameOf }) {
  const places = placesOfBars(bars, arrows, size);
  const { x, y, pitch, foot, from } = places;
  const { width, height, em } = size;
  const letter = 0.61 * em;
  const isTold = letter * Math.max(...bars.map((bar) => bar.text.length)) <= pitch * 1.05;
  const every = Math.ceil((0.8 * letter * Math.max(...bars.map(({ cell }) => nameOf(cell).length)) + 4) / pitch);
  const drawn = bars.map((bar, index) => barOf(places, isTold, bar, index % every === 0 && nameOf(bar.cell)));
  const under = arrows.map(({ cell }, at) => arrows.slice(0, at).filter((other) => other.cell === cell).length);
  const arrow = ({ name, cell }, at) => {
    const tip = `M ${x(cell)} ${foot + 0.2 * em} l ${0.45 * em} ${0.8 * em} h ${-0.9 * em} z`;
    const word = label(x(cell), foot + (2 + 1.1 * under[at]) * em, name, "mark", { ...BOLD, "font-size": em });
    const tips = under[at] > 0 ? [] : [shape("path", { d: tip, ...solid("mark") })];
    return shape("g", { "data-arrow": name }, ...tips, word);
  };
  const ends = { x1: x(bars[0].cell) - pitch / 2, x2: x(bars[bars.length - 1].cell) + pitch / 2, y1: y(0), y2: y(0) };
  const shapes = [...drawn, shape("line", { ...ends, ...lined("axis", "soft") }), ...arrows.map(arrow)];
  if (flow) {
    const look = { ...lined("arc", "bar", THICK), "marker-end": "url(#bars-tip)" };
    const told = `${flow.register} ${flow.number}`;
    shapes.push(tipOf("bars-tip"), shape("path", { d: arcOf(places, bars, flow), ...look }));
    shapes.push(label(from, y(0) - em, told, "will", { ...BOLDER, "font-size": 1.05 * em }));
  }
  if (moved) {
    const number = label(0, 0, moved.number, "flying", { ...BOLDER, "font-size": 1.1 * em, fill: BLUE });
    number.dataset.way = arcOf(places, bars, moved);
    shapes.push(number);
  }
  if (conflict) {
    const half = (letter * conflict.use.length) / 2 + 6;
    const middle = Math.max(half, Math.min(width - half, x(conflict.cell)));
    shapes.push(box(x(conflict.cell) - pitch / 2, 1, pitch, height - 2, lined("conflict", "mark", THICK)));
    shapes.push(label(middle, em, conflict.use, "mark", { ...BOLD, "font-size": em }));
  }
  return picture({ id: "bars", title, text, width, height }, shapes);
}

export function stripOf({ title, cells, columns, done }) {
  const [wide, high] = [Math.min(24, WIDE / columns.length), Math.max(3, Math.min(12, 160 / cells.length))];
  const most = Math.max(1, ...columns.flatMap(({ values }) => values.map(Math.abs)));
  const shade = (value) => Math.round((100 * Math.abs(value)) / most) / 100;
  const shapes = cells.flatMap((_, row) => runsOf(columns.map(({ values }) => values[row])).map(([value, from, to]) => {
    const look = { "fill-opacity": String(shade(value)), ...solid(value < 0 ? "mark" : "bar") };
    return box(from * wide, 4 + row * high, (to - from) * wide, high, look);
  }));
  const present = columns.reduce((best, { moment }, at) => (moment <= done ? at : best), 0);
  const height = 8 + cells.length * high;
  shapes.push(box(present * wide, 1, wide, height - 2, lined("present", "mark", THICK)));
  const told = columns.slice(1).flatMap(({ moment, values }, at) => {
    const altered = [...values.keys()].filter((row) => values[row] !== columns[at].values[row]);
    const texts = altered.map((row) => `${cells[row]}: ${values[row]}`);
    return texts.length > 0 ? [`By change ${moment}: ${texts.join(", ")}.`] : [];
  });
  const text = [`At the start: ${columns[0].values.join(" ")}.`, ...told].join(" ");
  const name = `${title}, at ${columns.length} moments`;
  return picture({ id: "strip", title: name, text, width: columns.length * wide, height }, shapes);
}

// Rows have a `name` and, of each column of `width` changes, how often its lines were executed;
// `marks` are parts, each with the `numbers` of changes that wrote it, on a row of its own.
export function mapOf({ title, text, rows, columns, total, marks, size: { width, height, em } }) {
  const names = [...rows, ...marks.map(({ part }) => ({ name: part }))].map(({ name }) => name);
  const left = Math.min(0.5 * em * Math.max(4, ...names.map(({ length }) => length)) + 10, width / 4);
  const [wide, high] = [width - left - 2, Math.min(1.3 * em, (height - 4) / Math.max(1, names.length))];
  const every = Math.ceil((0.9 * em) / high);
  const named = (row, kind) => {
    const more = { "text-anchor": "end", "font-size": 0.8 * em };
    return label(left - 5, 2 + row * high + Math.min(high * 0.8, em), names[row], kind, more);
  };
  const x = (change) => tenths(left + (Math.min(change, total) * wide) / Math.max(1, total));
  const outlines = new Map(); // of each shade all boxes, which are one shape
  const shapes = rows.flatMap(({ isBreak, darks }, row) => {
    const y = tenths(2 + row * high);
    for (const [dark, from, to] of runsOf(darks)) {
      const [begin, end] = [x(from * columns), x(to * columns)];
      const outline = `M${begin} ${y}h${tenths(end - begin)}v${tenths(high * 0.86)}h${-tenths(end - begin)}z`;
      outlines.set(dark, `${outlines.get(dark) || ""}${outline}`);
    }
    const tint = isBreak ? [box(left, y, wide, high, { ...solid("mark"), "fill-opacity": ".15" })] : [];
    return [...tint, ...(row % every === 0 ? [named(row, isBreak ? "mark" : "soft")] : [])];
  });
  for (const [dark, d] of outlines) shapes.push(shape("path", { d, "fill-opacity": dark / 10, ...solid("bar") }));
  marks.forEach(({ numbers }, at) => {
    const row = rows.length + at;
    const y = 2 + row * high;
    const tips = [...new Set(numbers.map((number) => Math.round(x(number))))];
    const tip = `${tenths(y)} l 3 ${tenths(high * 0.8)} h -6 z`;
    const tipAt = (place) => shape("path", { d: `M ${place} ${tip}`, ...solid("mark") });
    shapes.push(named(row, "mark"), ...tips.map(tipAt));
  });
  const future = box(left, 1, wide, height - 2, { class: "to-come", fill: "#fffdf7", "fill-opacity": ".65" });
  const present = upright(left, height);
  shapes.push(future, box(left, 1, wide, height - 2, lined("field axis", "soft")), present);
  return { svg: picture({ id: "map", title, text, width, height }, shapes), future, present, x };
}

// What is before the first of the writes, or behind the last, is drawn unless `isCut` says that
// there are more.
export function valuesOf({ title, text, writes, isCut, total, done }) {
  const numbers = writes.map(({ before, after }) => [Number(before.number), Number(after.number)]);
  const { most, least, y } = scaled(numbers.flat(), 6, 70);
  const x = (number) => 4 + (number / Math.max(1, total)) * 480;
  const line = writes.map(({ number }, at) => `H ${Math.round(x(number))} V ${Math.round(y(numbers[at][1]))}`);
  const begin = `M ${isCut[0] ? Math.round(x(writes[0].number)) : 4} ${Math.round(y(numbers[0][0]))}`;
  const d = [begin, ...line, ...(isCut[1] ? [] : ["H 484"])].join(" ");
  const told = (value, down) => label(488, y(value) + down, String(value), "soft", { "text-anchor": "start" });
  const shapes = [
    shape("line", { x1: 4, x2: 484, y1: y(0), y2: y(0), ...lined("axis", "soft", { "stroke-dasharray": "3 3" }) }),
    shape("path", { d, ...lined("line", "bar", { "stroke-width": 1.5 }) }),
    upright(x(done), 82), told(most, 6), ...(least < 0 ? [told(least, 3)] : []),
  ];
  return picture({ id: "values", title, text, width: 570, height: 82 }, shapes);
}

export function fileOf(pictures) {
  const sizes = pictures.map((svg) => ["width", "height"].map((name) => Number(svg.getAttribute(name))));
  const heightOf = (count) => sizes.slice(0, count).reduce((sum, [, size]) => sum + size, 0);
  const [width, height] = [Math.max(...sizes.map(([size]) => size)), heightOf(sizes.length)];
  const all = shape("svg", { viewBox: `0 0 ${width} ${height}`, width, height });
  pictures.forEach((svg, index) => {
    const copy = svg.cloneNode(true);
    copy.setAttribute("y", heightOf(index));
    all.append(copy);
  });
  for (const element of all.querySelectorAll("[class]")) element.removeAttribute("class");
  return `<?xml version="1.0" encoding="UTF-8"?>\n${new XMLSerializer().serializeToString(all)}\n`;
}
