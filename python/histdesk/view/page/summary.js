// What is counted of waits: groups that have a colour, the bars of the histogram, and percentiles.

import { COLOURS } from "./canvas.js";
import { placeAbove, roundUp } from "./numbers.js";

// Percentiles, in thousandths.
export const PERCENTILES = { p50: 500, p90: 900, p99: 990, "p99.9": 999 };
// Waits of this many microseconds or more are counted one by one.
export const LONG = 65536;

// Groups of waits: the keys that most waits have, each with a code; all other keys share the last code.
export class Groups {
  constructor(by, recordings, kindName) {
    this.kindName = kindName;
    this.column = { task: "name", cpu: "endCpu", prio: "prio", kind: "kind" }[by];
    this.prefix = { cpu: "CPU ", prio: "prio " }[by] || "";
    const counts = new Map();
    for (const { waits, about } of recordings) {
      const numbers = [];
      for (const value of waits[this.column]) numbers[value] = (numbers[value] || 0) + 1;
      for (const value in numbers) {
        const key = this.key(value, about);
        counts.set(key, (counts.get(key) || 0) + numbers[value]);
      }
    }
    const keys = [...counts].sort((one, other) => other[1] - one[1]).map(([key]) => key);
    this.keys = keys.slice(0, keys.length === COLOURS + 1 ? keys.length : COLOURS);
    this.others = keys.length - this.keys.length;
    this.count = this.keys.length + (this.others > 0);
  }

  key(value, about) {
    if (this.column === "name") return about.tasks[value];
    return this.column === "kind" ? this.kindName(value) : Number(value);
  }

  code(key) {
    const code = this.keys.indexOf(key);
    return code < 0 ? this.keys.length : code;
  }

  // Writes the code of each wait's group.
  mark(waits, about) {
    const codes = [];
    const column = waits[this.column];
    for (let index = 0; index < waits.count; index++) {
      waits.codes[index] = codes[column[index]] ??= this.code(this.key(column[index], about));
    }
  }

  title(code) {
    return code < this.keys.length ? `${this.prefix}${this.keys[code]}` : `${this.others} others`;
  }
}

// The bars of the histogram. A bar has the waits that are longer than its low bound, and at most as long as its high one.
export class Scale {
  // The bars are those of all waits, so that nothing moves while a filter is typed.
  constructor(isLinear, parts) {
    const lengthsAt = (share) =>
      parts
        .filter(({ count }) => count)
        .map(({ count, order, micros }) => micros[order[Math.floor((count - 1) * share)]]);
    const least = Math.min(...lengthsAt(0), Infinity);
    const most = Math.max(...lengthsAt(0.995), 1);
    const greatest = Math.max(...lengthsAt(1), 1);
    this.width = isLinear ? roundUp(Math.max(most / 30, 1)) : 0;
    this.first = isLinear || least === Infinity || least <= 1 ? 0 : powerOf(least);
    this.count = this.bar(greatest) + 1;
    // A linear scale ends where few waits are left; its last bar has all of these.
    this.isOpen = isLinear && this.count > this.bar(most) + 2;
    if (this.isOpen) this.count = this.bar(most) + 2;
  }

  bar(micros) {
    if (this.width) return Math.floor(Math.max(micros - 1, 0) / this.width);
    return powerOf(micros) - this.first;
  }

  low(bar) {
    if (bar + this.first === 0) return -1;
    return this.width ? bar * this.width : 2 ** (bar + this.first - 1);
  }

  high(bar) {
    if (this.isOpen && bar === this.count - 1) return Infinity;
    return this.width ? (bar + 1) * this.width : 2 ** (bar + this.first);
  }

  // Where a number of microseconds stands, in widths of a bar.
  place(micros) {
    const power = micros <= 1 ? micros : Math.log2(micros) + 1;
    const place = this.width ? micros / this.width : power - this.first;
    return Math.max(Math.min(place, this.isOpen ? this.count - 0.5 : this.count), 0);
  }

  // The microseconds that stand at a place.
  micros(place) {
    const power = place + this.first;
    if (this.width) return place * this.width;
    return power <= 1 ? power : 2 ** (power - 1);
  }
}

// The exponent of the least power of two that is not below a number.
const powerOf = (micros) => (micros <= 1 ? 0 : 32 - Math.clz32(micros - 1));

// How many waits have how many microseconds: short ones by a count for each number, the few long ones one by one.
class Spread {
  constructor() {
    Object.assign(this, { upTo: new Uint32Array(LONG), longer: [], sum: 0, count: 0 });
  }

  add(micros) {
    if (micros < LONG) this.upTo[micros]++;
    else this.longer.push(micros);
    this.sum += micros;
  }

  // Makes sums of the counts, once all waits are added.
  close() {
    for (let micros = 1; micros < LONG; micros++) this.upTo[micros] += this.upTo[micros - 1];
    this.longer.sort((one, other) => one - other);
    this.count = this.upTo[LONG - 1] + this.longer.length;
    return this;
  }

  // The share of waits that are no longer than this.
  share(micros) {
    const above = micros < LONG ? this.upTo[Math.floor(micros)] : this.upTo[LONG - 1] + placeAbove(this.longer, micros);
    return above / this.count;
  }

  // The length at a rank, from 1 for the shortest.
  at(rank) {
    const micros = placeAbove(this.upTo, rank - 1);
    return micros < LONG ? micros : this.longer[rank - this.upTo[LONG - 1] - 1];
  }

  // Count, mean, greatest and percentiles by nearest rank.
  figures() {
    const { count } = this;
    const figures = { count, mean: count ? this.sum / count : null, max: count ? this.at(count) : null };
    for (const [name, share] of Object.entries(PERCENTILES)) {
      figures[name] = count ? this.at(Math.ceil((count * share) / 1000)) : null;
    }
    return figures;
  }
}

// Counts the waits of a side that pass the filter: `stacks` has, for each bar, how many there are of each group, and `doubtful`
// how many doubtful ones stand apart, unless these count too.
export function summarize(side, scale, groups, withDoubtful) {
  const stacks = new Uint32Array(scale.count * groups.count);
  const doubtful = new Uint32Array(scale.count);
  const spread = new Spread();
  let doubts = 0;
  let count = 0;
  for (const part of side.parts) {
    for (let index = 0; index < part.count; index++) {
      if (!side.has(part, index)) continue;
      const micros = part.micros[index];
      const bar = Math.min(scale.bar(micros), scale.count - 1);
      count++;
      doubts += part.doubtful[index];
      if (part.doubtful[index] && !withDoubtful) {
        doubtful[bar]++;
      } else {
        stacks[bar * groups.count + part.codes[index]]++;
        spread.add(micros);
      }
    }
  }
  spread.close();
  return { stacks, doubtful, spread, count, figures: { ...spread.figures(), doubtful: doubts } };
}
