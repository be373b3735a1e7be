// Linked nodes as the engine reads them off the cells, at each moment that is seen.
import { $, counted, on, put } from "./dom.js";
import { nodesOf } from "./graph.js";
import { refusalOf } from "./machine.js";
import { keepsPictures } from "./pictures.js";
import { upTo } from "./range.js";

const MOST_NODES = 120; // that are drawn
const REMARK = /^\*\s*nodes:\s*(from\s.*)/i; // of a source or a script
const SIZE = /\s(\d+)\s+words\s+each/i;

// With what is `said` of a link that leads to no node.
function led({ cell = undefined, inside = undefined, out = undefined, back = false, ...named }) {
  const other = inside === undefined ? out && `out ${out}` : `inside ${inside}`;
  return { ...named, cell, isBack: back, said: cell === undefined ? other || "nil" : "" };
}

// The nodes that the engine tells, with the names of what leads to them.
export function nodesIn({ heads, pointers, nodes, unreached }) {
  return {
    heads: heads.map(({ head, ...each }) => led({ name: head.replace(/^=|=$/g, ""), ...each })),
    pointers: pointers.map(({ register, cell }) => led({ name: `r${register}`, cell })),
    nodes: nodes.map((node) => ({ ...node, links: node.links.map(led) })),
    unreached,
  };
}

const leadsTo = ({ cell, isBack, said }) => said || `${isBack ? "back to " : ""}${cell}`;

function spokenOf({ heads, pointers, nodes }) {
  const told = nodes.map(({ cell, labels, links, isWritten }) => {
    const parts = [labels.join(" "), links.length > 0 && `links ${links.map(leadsTo).join(", ")}`].filter(Boolean);
    return `${cell}: ${parts.join("; ")}${isWritten ? " (written)" : ""}.`;
  });
  const named = (verb) => (each) => `${each.name} ${verb} ${leadsTo(each)}.`;
  return [...told, ...heads.map(named("leads to")), ...pointers.map(named("points to"))].join(" ");
}

export class Nodes {
  constructor(/** @type {Store} */ store, /** @type {Memory} */ memory) {
    this.store = store;
    for (const [id, event] of [["nodes-box", "toggle"], ["nodes-asked", "input"]]) on(id, event, () => this.show());
    store.on("view", () => this.show());
    store.on("forget", () => this.draw([]));
    on("nodes", "click", ({ target }) => {
      const { cell } = target.closest("[data-cell]")?.dataset || {};
      if (cell) memory.showFrom(cell, String(Number(cell) + this.size - 1));
    });
    keepsPictures(store, "nodes", "picture", "#nodes svg");
  }

  // What a file keeps of it, which is what is asked for; "" if it is shut.
  get kept() { return $("nodes-box").open ? $("nodes-asked").value.trim() : ""; }
  get size() { return Number((SIZE.exec(this.kept) || [0, 1])[1]); }

  // Another program: what was kept, or what a remark of its source or of its script asks for.
  open(kept, lines) {
    const asked = kept || lines.map((line) => (REMARK.exec(line) || [])[1]).find(Boolean) || "";
    $("nodes-asked").value = asked;
    $("nodes-box").open = asked !== "";
  }

  draw(pictures, refusal = "", more = "") {
    put($("nodes-fault"), refusal && `Not shown: ${refusal}.`);
    put($("nodes-more"), more);
    $("nodes").replaceChildren(...pictures);
  }

  show() {
    const { store: { view }, store, kept, size } = this;
    if (!view || !$("nodes-box").open) return;
    if (kept === "") this.draw([]);
    else if (kept !== view.nodes) store.look();
    else if (!view.told.success) this.draw([], refusalOf(view.told));
    else {
      const found = nodesIn(view.told.body);
      const isWritten = (cell) => upTo(cell, cell + size - 1).some((each) => view.altered.has(`cell ${each}`));
      const nodes = found.nodes.slice(0, MOST_NODES).map((node) => ({ ...node, isWritten: isWritten(node.cell) }));
      const [title, all] = [`Nodes ${kept}, after ${counted(view.state.done, "change")}`, found.nodes.length];
      const rest = all > MOST_NODES && `These are the first ${MOST_NODES} of ${counted(all, "node")}.`;
      const none = all === 0 && "No link leads to a node.";
      const unreached = found.unreached > 0 && `Not reached: ${counted(found.unreached, "node")}.`;
      const picture = nodesOf({ ...found, title, text: spokenOf({ ...found, nodes }), nodes });
      this.draw([picture], "", [rest, none, unreached].filter(Boolean).join(" "));
    }
  }
}
