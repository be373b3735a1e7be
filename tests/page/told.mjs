// What the engine says of nodes, of the map, of formulas and of passages, and how it is drawn; for pure.mjs.
import { nodesOf } from "../../page/graph.js";
import { nodesIn } from "../../page/nodes.js";
import { darksOf } from "../../page/pictures.js";
import { mapOf } from "../../page/svg.js";
import { analysisIn, csvOf, passagesIn } from "../../page/tables.js";

const to = (cell, back = false) => ({ cell, back });
const LINKED = {
  heads: [{ head: "=ROOT=", cell: 1000 }, { head: "LIST(0:5)" }, { head: "Q", inside: 0 }],
  pointers: [{ register: "I1", cell: 1004 }],
  nodes: [
    { cell: 1000, row: 0, labels: ["-5", "7"], links: [to(1002), to(1004)] }, { cell: 1002, row: 1, labels: ["0", "-0"], links: [{ back: false }, to(1000, true)] },
    { cell: 1004, row: 1, labels: ["3", "2"], links: [{ out: "-7", back: false }, { inside: 1003, back: false }] },
  ],
  unreached: 1,
};
const RING = { heads: [], pointers: [], unreached: 0, nodes: [[1, to(3)], [3, to(5)], [5, to(1, true)]].map(([cell, link], row) => ({ cell, row, labels: [], links: [link] })) };
const ANALYSIS = {
  lines: [{ line: 21, formula: "N", value: "9", count: "9", verdict: "ok" }, { line: 33, formula: "(", value: "unread", count: "1", verdict: "?" }],
  names: [{ name: "N", value: "9" }], text: "? line 33 column 32: the formula cannot be read\nnames N=9\ntime 2(N) = 18 = 18\nlines 1 ok, 0 no, 1 ?\n",
};
const PASSAGES = { columns: ["A", "KEY+1"], assertion: "A < 0", rows: [{ state: 3, numbers: ["-5", "-0"], holds: true }, { state: 10, numbers: ["-1073741823", "7"], holds: false }], before: 17 };

// `row` compares what is found with what is wanted; `within` finds the shapes of a name.
export function tellings(row, within) {
  const counts = [[0, 0], [3, 0], [3, 3], [6, 3], [8, 4]].map(([one, two]) => Uint32Array.of(0, one, two)); // before columns of three changes
  const darks = darksOf(counts, [[1], [2], [1, 2]], 3, 12);
  row("map: how dark groups are in columns", darks, [{ count: 8, darks: [10, 0, 10, 7] }, { count: 4, darks: [0, 10, 0, 4] }, { count: 12, darks: [10, 10, 10, 10] }]);
  row("map: the last column may be shorter", darksOf(counts.slice(0, 2), [[1]], 3, 3).concat(darksOf([counts[3], counts[4]], [[1]], 3, 2)), [{ count: 3, darks: [10] }, { count: 8, darks: [10] }]);
  const rows = [{ name: "A", darks: darks[0].darks }, { name: "B", darks: darks[1].darks }];
  const { svg } = mapOf({ title: "", text: "", rows, columns: 3, total: 12, marks: [], size: { width: 152, height: 40, em: 10 } });
  const outlines = within(svg, "path").map(({ d, "fill-opacity": dark }) => [d, dark]);
  row("map: its boxes, of columns of 30", outlines, [["M30 2h30v11.2h-30zM90 2h30v11.2h-30zM60 15h30v11.2h-30z", 1], ["M120 2h30v11.2h-30z", 0.7], ["M120 15h30v11.2h-30z", 0.4]]);

  const linked = nodesIn(LINKED);
  const at = (cell, isBack = false) => ({ cell, isBack, said: "" });
  const none = (said) => ({ cell: undefined, isBack: false, said });
  row("nodes: heads and pointers", [linked.heads, linked.pointers, linked.unreached], [[{ name: "ROOT", ...at(1000) }, { name: "LIST(0:5)", ...none("nil") }, { name: "Q", ...none("inside 0") }], [{ name: "rI1", ...at(1004) }], 1]);
  row("nodes: labels and links", linked.nodes, [
    { cell: 1000, row: 0, labels: ["-5", "7"], links: [at(1002), at(1004)] }, { cell: 1002, row: 1, labels: ["0", "-0"], links: [none("nil"), at(1000, true)] },
    { cell: 1004, row: 1, labels: ["3", "2"], links: [none("out -7"), none("inside 1003")] },
  ]);
  const graph = nodesOf({ title: "", text: "", ...linked, nodes: linked.nodes.map((node) => ({ ...node, isWritten: node.cell === 1002 })) });
  const boxesOf = (picture) => picture.inside.filter(({ name }) => name === "g").map(({ inside: [{ given }] }) => given);
  const boxes = boxesOf(graph).map(({ x, y, width, class: kind }) => ({ middle: x + width / 2, y, kind }));
  row("nodes: the first one above the middle of the others", [Math.round(2 * boxes[0].middle), boxes[0].y < boxes[1].y, boxes[1].y], [Math.round(boxes[1].middle + boxes[2].middle), true, boxes[2].y]);
  row("nodes: the written one", boxes.map(({ kind }) => kind), ["axis", "written", "axis"]);
  const arrows = within(graph, "path").filter(({ "marker-end": tip }) => tip).map(({ d, "stroke-dasharray": dashes }) => [...d.split(" ").slice(-2).map(Number), Boolean(dashes)]);
  const foot = [Math.round(boxes[0].middle), boxes[0].y + 20];
  row("nodes: an arrow to each node, a dashed one back", arrows, [[boxes[1].middle, boxes[1].y, false], [boxes[2].middle, boxes[2].y, false], [...foot, true]]);
  row("nodes: red ones that lead to no node, and a nil", [within(graph, "path").filter(({ class: kind }) => kind === "conflict").length, within(graph, "line").length], [2, 1]);
  const ring = boxesOf(nodesOf({ title: "", text: "", heads: [], pointers: [], nodes: nodesIn(RING).nodes }));
  row("nodes: a list goes to the right", [ring[0].x < ring[1].x && ring[1].x < ring[2].x, new Set(ring.map(({ y }) => y)).size], [true, 1]);

  const analysis = analysisIn(ANALYSIS);
  row("analysis: a row for each formula", analysis.rows, [["21", "N", "9", "9", "ok"], ["33", "(", "unread", "1", "?"]]);
  row("analysis: what is behind them", analysis.more, "? line 33 column 32: the formula cannot be read\nnames N=9\ntime 2(N) = 18 = 18\nlines 1 ok, 0 no, 1 ?");
  row("passages: a row for each", passagesIn(PASSAGES), { heads: ["state", "A", "KEY+1", "A < 0"], rows: [["3", "-5", "-0", "true"], ["10", "-1073741823", "7", "false"]], more: ".. and 17 before" });
  row("passages: none", passagesIn({ columns: ["A"], rows: [], before: 0 }), { heads: ["state", "A"], rows: [], more: "" });
  row("a table as CSV", csvOf([["a", "1,5"], ['x"', "y"]]), 'a,"1,5"\n"x""",y\n');
  row("a table as CSV: no cell is a formula", csvOf([["-12", "-1+2", "N-1"], ["=A1", "+1", "@A"], ["\t=1", "\r=1", '=H("x")']]), "-12,'-1+2,N-1\n'=A1,'+1,'@A\n'\t=1,'\r=1,\"'=H(\"\"x\"\")\"\n");
}
