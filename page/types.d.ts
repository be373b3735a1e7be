// What the parts of the page hand to each other, for `tsc -p page`: what the engine tells (docs/DAP.md), and what is made
// of it.

type App = import("./app.js").App;
type Store = import("./store.js").Store;
type Session = import("./session.js").Session;
type Listing = import("./listing.js").Listing;
type Check = import("./check.js").Check;
type Stage = import("./stage.js").Stage;
type Memory = import("./memory.js").Memory;

interface Word { word: string; number: string; characters: string }
interface Instruction { operation: string; index: number; field: number; address: string; value?: string }
interface Cell extends Word { cell: number; text: string; value: string; instruction?: Instruction }
interface Register extends Word { name: string }
interface State {
  done: number; ahead: number; location: number; clock: string; over: boolean; cmp: "L" | "E" | "G"; halted: boolean;
  registers: Register[]; cells: Cell[]; altered: string[];
}
interface Item { part: string; what?: string; before: string; after: string; beforeValue?: string; afterValue?: string; block?: number }
interface Change { number: number; location: number; locationAfter: number; text: string; time: string; items: Item[]; instruction?: Instruction; taken?: boolean }
interface Next extends Partial<Change> { exceptionId?: string; description?: string } // no items where it would be a fault
interface Unit {
  unit: number; kind: string; place: number; blocks: number; delay: string; until: string;
  rows?: string[]; pages?: number[]; unread?: string[]; block?: Word[];
}
interface Write { number: number; before: any; after: any }
interface Program { rows: { cell: number; instruction: boolean; line?: number }[]; symbols: { name: string; value: string; number: string }[]; start: number }
interface Found { line: number; column?: number; endColumn?: number; severity: string; code: string; text: string; isFault?: boolean; remedy?: string }
interface Answer { success: boolean; body: any; message?: string; stopped?: { reason: string; text: string } }
type Asked = [command: string, given: object]; // a request

interface Texts { source: string; deck: string; cards: string }
interface Conflict { text: string; cell: number; unit: number; until: string }
interface Logged { command: string; reply: string; isSaid: boolean; slidFrom?: number }

// A moment of the machine, as all parts are shown it.
interface View {
  state: State;
  change: Change | null; // the last one that is done
  next: any; // the change that a step would be, or the fault that it would meet
  field: number; // of which cells and their changes have the numbers too
  nodes: string; // the words that ask for them
  told: Answer; // the answer to these, if there are some
  inField: { change: Change | null; next: any }; // both with the numbers of that field
  times: Uint32Array; // how often cells were executed
  units: Unit[];
  blocks: Map<string, Word[]>; // those that are shown, as "8 0"
  wordIn: (cell: number) => Word & { value: string; text?: string; instruction?: Instruction };
  altered: Set<string>; // parts, by the last change
  conflict?: Conflict; // at which the run stopped
  lastCell?: number; // that which was written last
  sentences?: any; // on the last change and the next step, and of the status
  asked?: string; // the part of which a person predicts what the next step makes of it, or "jump"
  judged?: string; // what is told of the prediction of the last change
}

interface Shown { answer: Answer | null; before: View | null; view: View; listing: Listing }

// What a bundle holds, to be opened.
interface Opened { source: string; deck: string; done: string[]; left: string[]; breaks: number[]; bars: string; nodes: string; passages: string; names: string; score: string; shown: string[]; lesson: string }
interface Parts { source: string; deck: string; script: string }
interface Lesson { group: string; name: string; title: string; bundle: Parts; notes: string; answer: string; solution?: Parts }

declare const Engine: typeof import("./engine.js").Engine; // in the worker's program, which follows the engine's

// What the page asks of elements that it has found, and what the library of tsc does not know yet.
interface Window { CodeMirror: any }
interface Element { hidden: boolean; title: string; offsetTop: number; offsetHeight: number; drawn?: string }
interface ChildNode { getBoundingClientRect(): DOMRect }
interface Node { contains(other: EventTarget | null): boolean }
interface EventTarget { closest(selector: string): any }
interface Array<T> { findLast(test: (item: T) => any): T | undefined; findLastIndex(test: (item: T) => any): number }
declare class CompressionStream { constructor(format: string); readable: ReadableStream; writable: WritableStream }
declare class DecompressionStream { constructor(format: string); readable: ReadableStream; writable: WritableStream }
