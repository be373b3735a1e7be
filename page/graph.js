// Nodes as boxes with a cell for each link, in rows by their distance from a head, and an arrow for
// each link. Rows go downwards; those of lists, and if there are more rows than a row is long, to the
// right.
import { fourDigits } from "./dom.js";
import { BOLD, LETTER, THICK, box, label, lined, picture, shape, solid, tipOf } from "./svg.js";

const [TALL, CELL] = [20, 20]; // of a box and of the cell of a link
const isAt = (cell) => (each) => each.cell === cell;
const together = (named) => named.map(({ name }) => name).join(" ");
const widthOf = (texts) => Math.max(0, ...texts.map(({ length }) => length)) * LETTER;

// Nodes that lead to no others are in columns of their own, and each other one is in the middle of
// those to which it leads first.
function placesOf(nodes, heads) {
  const places = new Map(nodes.map((node) => [node.cell, { node, next: [], isMet: false, column: 0 }]));
  const [first, met] = [[], []];
  const meet = (cell, row) => {
    const place = places.get(cell);
    if (!place || place.isMet) return;
    place.isMet = true;
    row.push(place);
    met.push(place);
  };
  for (const { cell } of [...heads, ...nodes.filter(({ row }) => row === 0)]) meet(cell, first);
  for (const { node, next } of met) for (const { cell, isBack } of node.links) if (!isBack) meet(cell, next);
  for (const { cell } of nodes) meet(cell, first); // led to by nodes that are not drawn
  let columns = 0;
  const settle = (place) => {
    const below = place.next.map(settle);
    place.column = below.length > 0 ? (below[0] + below[below.length - 1]) / 2 : columns;
    if (below.length === 0) columns += 1;
    return place.column;
  };
  for (const place of first) settle(place);
  return { places, columns };
}

// The sizes that all nodes share, and where each is.
function frameOf(nodes, heads, isTopped) {
  const { places, columns } = placesOf(nodes, heads);
  const rows = 1 + Math.max(0, ...nodes.map(({ row }) => row));
  const most = Math.max(0, ...nodes.map(({ links }) => links.length));
  const labels = widthOf(nodes.map(({ labels: each }) => each.join(" ")));
  const names = widthOf(heads.map(({ cell }) => together(heads.filter(isAt(cell)))));
  const [isAcross, body] = [most === 1 || rows > columns, labels && labels + 10];
  const wide = Math.max(CELL, body + CELL * most);
  const [right, down] = isAcross ? [wide + 40, 54] : [Math.max(wide + 26, heads.length > 1 ? names + 8 : 0), 56];
  const [left, top] = [isAcross ? 24 + names : 24, isTopped ? 42 : 26];
  const [long, high] = isAcross ? [rows, columns] : [columns, rows];
  const at = (cell) => {
    const { column, node: { row } } = places.get(cell);
    const [along, across] = isAcross ? [row, column] : [column, row];
    return { x: left + right * along, y: top + down * across };
  };
  return { places, isAcross, body, wide, at, width: left + 24 + right * long, height: top + down * high };
}

// Below both boxes; around the right of a column; or beside the one and up to the foot of the other.
function backOf({ isAcross, wide }, from, to, x, y) {
  const [side, middle, foot] = [from.x + wide, to.x + wide / 2, to.y + TALL];
  const deep = 16 + Math.min(16, Math.abs(to.x - from.x) / 8);
  const [around, beside] = [side + 16 + Math.abs(to.y - from.y) / 8, middle > x ? side + 26 : from.x - 26];
  const isColumn = isAcross && to.x === from.x && to.y !== from.y;
  const way = isColumn ? [[around, y], [around, foot - TALL / 2], [side, foot - TALL / 2]]
    : isAcross || to.y >= from.y ? [[x, from.y + TALL + deep], [middle, foot + deep], [middle, foot]]
      : [[beside, y], [middle, foot + 40], [middle, foot]];
  return `M ${x} ${y} C ${way.map((point) => point.map(Math.round).join(" ")).join(" ")}`;
}

// From the middle of the cell of a link.
function arrowOf(frame, from, { cell, isBack, said }, x, y) {
  const { places, isAcross, wide, at } = frame;
  if (said === "nil") return [shape("line", { x1: x - 7, x2: x + 7, y1: y + 7, y2: y - 7, ...lined("axis", "soft") })];
  if (!places.has(cell)) {
    const line = shape("path", { d: `M ${x} ${y} V ${from.y + TALL + 10}`, ...lined("conflict", "mark") });
    return [line, label(x, from.y + TALL + 19, said || `to ${cell}`, "mark", { "font-size": 9 })];
  }
  const to = at(cell);
  const tip = isAcross ? `${to.x} ${to.y + TALL / 2}` : `${to.x + wide / 2} ${to.y}`;
  const look = lined("next", "bar", { "marker-end": "url(#nodes-tip)", "stroke-dasharray": isBack && "4 3" });
  const d = isBack ? backOf(frame, from, to, x, y) : `M ${x} ${y} L ${tip}`;
  return [shape("circle", { cx: x, cy: y, r: 2, ...solid("bar") }), shape("path", { d, ...look })];
}

// Heads of lists are named before the first node, and whatever else points to a node above it.
function nodeOf(frame, { heads, pointers }, { cell, labels, links, isWritten }) {
  const { isAcross, body, wide, at } = frame;
  const { x, y } = at(cell);
  const look = isWritten ? { ...lined("written", "mark", THICK), ...solid("written") } : lined("axis", "soft");
  const cells = links.map((_, index) => box(x + body + index * CELL, y, CELL, TALL, lined("axis", "soft")));
  const arrows = links.flatMap((link, index) => {
    return arrowOf(frame, { x, y }, link, x + body + (index + 0.5) * CELL, y + TALL / 2);
  });
  const [leading, pointing] = [heads, pointers].map((list) => list.filter(isAt(cell)));
  const before = isAcross ? together(leading) : "";
  const above = together(isAcross ? pointing : [...leading, ...pointing]);
  const tip = (d) => shape("path", { d, ...solid("mark") });
  const names = [
    before && tip(`M ${x - 1} ${y + 10} l -8 4 v -8 z`),
    before && label(x - 12, y + 14, before, "mark", { ...BOLD, "text-anchor": "end" }),
    above && tip(`M ${x + wide - 6} ${y - 1} l 4 -8 h -8 z`),
    above && label(x + wide - 6, y - 12, above, "mark", BOLD),
  ];
  return shape(
    "g", { "data-cell": cell }, box(x, y, wide, TALL, look), ...cells, ...arrows, ...names.filter(Boolean),
    label(x, y - 3, fourDigits(cell), "soft", { "font-size": 9, "text-anchor": "start" }),
    label(x + body / 2, y + 14, labels.join(" "), "ink", { "font-size": 11 }),
  );
}

// `nodes` have their `labels` and `links`; a link, a head and a pointer the `cell` to which it leads,
// or what is `said` of it.
export function nodesOf({ title, text, nodes, heads, pointers }) {
  const isDrawn = ({ cell }) => nodes.some(isAt(cell));
  const others = [...heads, ...pointers].filter((each) => !isDrawn(each));
  const told = others.map(({ name, said, cell }) => `${name}: ${said || cell}`).join(", ");
  const frame = frameOf(nodes, heads.filter(isDrawn), told !== "");
  const shapes = [
    tipOf("nodes-tip"),
    label(8, 14, told, "mark", { ...BOLD, "text-anchor": "start" }),
    ...nodes.map((node) => nodeOf(frame, { heads, pointers }, node)),
  ];
  const width = Math.max(160, widthOf([told]) + 16, frame.width);
  return picture({ id: "nodes", title, text, width, height: frame.height }, shapes);
}
