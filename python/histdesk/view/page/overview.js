// What all CPUs did in a stretch of time, as the server reports it: shares of many equal parts, and single runs.

import { decodeBase64 } from "./source.js";

// A share of a part is a number up to this.
export const WHOLE = 255;
// The numbers of what is no task.
export const IDLE = 0;
const UNKNOWN = 1;

const RUN_COLUMNS = { lane: Uint16Array, begin: Float64Array, end: Float64Array, task: Uint32Array, line: Uint32Array };

const column = (Kind, text) => new Kind(decodeBase64(text).buffer);

// Times are in microseconds since the first event of the recording.
export class Overview {
  constructor(answer, first) {
    this.low = answer.from - first;
    this.high = answer.until - first;
    this.width = answer.width;
    this.cpus = answer.cpus;
    // The tasks by their numbers here, each with its PID and its name.
    this.tasks = answer.tasks.map(([pid, name]) => ({ pid, name }));
    for (const name of ["idle", "waited", "unknown"]) this[name] = column(Uint8Array, answer[name]);
    this.task = column(Uint32Array, answer.task);
    this.most = column(Uint32Array, answer.most);
    this.mean = column(Float32Array, answer.mean);
    this.runs = Object.fromEntries(
      Object.entries(RUN_COLUMNS).map(([name, Kind]) => [name, column(Kind, answer.runs[name])]),
    );
    this.worst = answer.worst.map((one) => ({ ...one, begin: one.begin - first, end: one.end - first }));
    // Where the runs of each lane begin among all runs.
    this.starts = new Uint32Array(this.cpus.length + 1);
    for (const lane of this.runs.lane) this.starts[lane + 1]++;
    for (let lane = 0; lane < this.cpus.length; lane++) this.starts[lane + 1] += this.starts[lane];
  }

  // The part at a time.
  partAt(time) {
    const part = Math.floor(((time - this.low) / (this.high - this.low)) * this.width);
    return Math.max(Math.min(part, this.width - 1), 0);
  }

  timeOf(part) {
    return this.low + (part / this.width) * (this.high - this.low);
  }

  // The share of a part in which a CPU ran tasks.
  busy(cell) {
    return Math.max(WHOLE - this.idle[cell] - this.unknown[cell], 0);
  }

  // The run of a lane at a time; null if none is reported there.
  runAt(lane, time) {
    const { begin, end } = this.runs;
    let low = this.starts[lane];
    let high = this.starts[lane + 1];
    while (low < high) {
      const middle = (low + high) >>> 1;
      if (begin[middle] > time) high = middle;
      else low = middle + 1;
    }
    return low > this.starts[lane] && end[low - 1] > time ? low - 1 : null;
  }

  // The mean shares of all parts and CPUs, from 0 to 1.
  shares() {
    const mean = (values) => values.reduce((sum, value) => sum + value, 0) / (values.length || 1) / WHOLE;
    const [idle, waited, unknown] = [this.idle, this.waited, this.unknown].map(mean);
    return { busy: Math.max(1 - idle - unknown, 0), idle, waited, unknown };
  }

  // The tasks that fill most parts, at most so many.
  greatestTasks(count) {
    const sums = new Float64Array(this.tasks.length);
    this.task.forEach((task, cell) => {
      sums[task] += this.busy(cell);
    });
    sums[IDLE] = sums[UNKNOWN] = 0;
    const numbers = [...sums.keys()].filter((task) => sums[task] > 0);
    return numbers.sort((one, other) => sums[other] - sums[one]).slice(0, count).map((task) => this.tasks[task]);
  }
}
