// Waits as columns of numbers. A recording has hundreds of thousands of them, so no wait is an object.

import { ascending } from "./numbers.js";

const COLUMNS = {
  begin: Float64Array,
  micros: Uint32Array,
  endLine: Uint32Array,
  pid: Int32Array,
  name: Uint32Array,
  prio: Int32Array,
  beginLine: Uint32Array,
  beginCpu: Uint16Array,
  endCpu: Uint16Array,
  kind: Uint8Array,
  doubtful: Uint8Array,
};
// Each column begins at a multiple of this many bytes.
const ALIGNMENT = 8;

// The waits of a recording in the order in which they ended, or those that are new after strikes.
export class Waits {
  // `bytes` are what the server sends: the columns one after the other.
  constructor(bytes, count) {
    let at = 0;
    for (const [name, Kind] of Object.entries(COLUMNS)) {
      this[name] = new Kind(bytes, at, count);
      at += Math.ceil((count * Kind.BYTES_PER_ELEMENT) / ALIGNMENT) * ALIGNMENT;
    }
    this.count = count;
    // 1 for each wait that passes the filter, 1 for each that strikes take away, and the group of each.
    this.passes = new Uint8Array(count).fill(1);
    this.strikes = new Uint8Array(count);
    this.codes = new Uint8Array(count);
    // From the shortest to the longest.
    this.order = ascending(this.micros);
  }
}

// The numbers of the waits of one part or two, from the shortest to the longest. The numbers of the second part follow those
// of the first.
function merge([first, fresh]) {
  if (!fresh) return first.order;
  const numbers = new Uint32Array(first.count + fresh.count);
  const { order, micros } = first;
  let left = 0;
  let at = 0;
  for (const index of fresh.order) {
    const length = fresh.micros[index];
    while (left < order.length && micros[order[left]] <= length) numbers[at++] = order[left++];
    numbers[at++] = first.count + index;
  }
  numbers.set(order.subarray(left), at);
  return numbers;
}

// Waits that are counted together: those of a recording, or after strikes what is left of them and new ones.
export class Side {
  constructor(title, recording, about, parts, isAfter = false) {
    Object.assign(this, { title, recording, about, parts, isAfter, order: merge(parts) });
  }

  has(part, index) {
    return part.passes[index] && !(this.isAfter && part.strikes[index]);
  }

  // A column's value of the wait with a number.
  value(column, wait) {
    const [first, fresh] = this.parts;
    return wait < first.count ? first[column][wait] : fresh[column][wait - first.count];
  }

  task(wait) {
    return this.about.tasks[this.value("name", wait)];
  }

  // When a wait ended, in microseconds since the first event.
  end(wait) {
    return this.value("begin", wait) + this.value("micros", wait);
  }

  // The length of the longest wait, whatever the filter; 0 if there is none.
  longestOfAll() {
    return this.order.length ? this.value("micros", this.order.at(-1)) : 0;
  }

  // The numbers of the waits above `low` and up to `high`, of a group or of all, the longest first.
  longest(low, high, group) {
    const { order, parts } = this;
    const [first, fresh] = parts;
    const numbers = new Uint32Array(order.length);
    let count = 0;
    for (let at = order.length - 1; at >= 0; at--) {
      const isFirst = order[at] < first.count;
      const part = isFirst ? first : fresh;
      const index = isFirst ? order[at] : order[at] - first.count;
      if (part.micros[index] <= low) break;
      if (part.micros[index] > high || !this.has(part, index)) continue;
      if (group === null || part.codes[index] === group) numbers[count++] = order[at];
    }
    return numbers.subarray(0, count);
  }
}
