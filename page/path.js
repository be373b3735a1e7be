// How often each cell was executed, in columns of the same width, each asked for once. So a moment
// takes no more than what is done since the column before it.
import { CELLS } from "./range.js";

const MOST_MARKS = 1000; // of a part
const MOST_COLUMNS = 480; // a column is twice as long whenever there would be more

export class Path {
  width = 1; // of a column, in changes
  sums = [new Uint32Array(CELLS)]; // how often each cell was executed before each column, and behind the last one

  // What is not known up to a number of changes: whole columns, and the rest.
  requestsTo(until) {
    for (; until > this.width * MOST_COLUMNS; this.width *= 2) this.sums = this.sums.filter((_, at) => at % 2 === 0);
    const whole = Math.floor(until / this.width);
    const known = Math.min(whole, this.sums.length - 1);
    const parts = [[known, whole, whole - known], [whole, until / this.width, 1]];
    return parts.filter(([from, end]) => from < end).map(([from, end, columns]) => {
      return ["mix/path", { from: from * this.width, until: end * this.width, columns }];
    });
  }

  timesAt(until, bodies) {
    const { sums, width } = this;
    const whole = Math.floor(until / width);
    let times = sums[Math.min(whole, sums.length - 1)];
    for (const { cells } of bodies.flatMap(({ columns }) => columns)) {
      times = times.slice();
      for (const { cell, count } of cells) times[cell] += count;
      if (sums.length <= whole) sums.push(times);
    }
    return times;
  }

  // How often each cell was executed before each column of all changes, and behind the last one.
  upTo(total, times) { return [...this.sums.slice(0, Math.ceil(total / this.width)), times]; }
  cut(done) { this.sums.length = Math.min(this.sums.length, 1 + Math.floor(done / this.width)); }
}

// How often each cell was executed before each column of all changes; when units and a part were
// written.
export async function mapWith(session, part, /** @type {View} */ { state: { done }, units, times }) {
  const { total, path } = session;
  const isKnown = done === total;
  const bodies = isKnown ? [] : await session.bodies([["mix/units", {}], ...path.requestsTo(total)], total);
  const last = isKnown ? times : path.timesAt(total, bodies.slice(1));
  const marks = await marksOf(session, part, isKnown ? units : bodies[0].units);
  return { total, width: path.width, sums: path.upTo(total, last), marks };
}

// The last changes that wrote to units and to a part. Of a unit that only prints, no more are asked
// for than it has printed since.
async function marksOf(session, part, units) {
  const { total, written } = session;
  const printed = units.filter(({ rows }) => rows && rows.length > 0);
  const sizes = printed.map(({ unit, rows, pages, unread }) => {
    return [`unit ${unit}`, unread ? NaN : rows.length + pages.length];
  });
  const marks = [];
  for (const [of, size] of part ? [...sizes, [part, NaN]] : sizes) {
    const known = written.get(of) || { size: 0, numbers: [] };
    const isMore = size - known.size <= MOST_MARKS; // otherwise all are asked for
    const count = isMore ? size - known.size : MOST_MARKS;
    const asked = count > 0 ? [["mix/writes", { part: of, count }]] : [];
    const [{ writes } = { writes: [] }] = await session.bodies(asked, total);
    const more = writes.map(({ number }) => number).reverse();
    const numbers = [...(isMore ? known.numbers : []), ...more].slice(-MOST_MARKS);
    written.set(of, { size, numbers });
    if (numbers.length > 0) marks.push({ part: of, numbers });
  }
  return marks;
}
