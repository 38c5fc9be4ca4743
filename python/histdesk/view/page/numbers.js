// Numbers as people read them, round numbers for axes, and searches in sorted numbers.

// How many bits a step of a sort looks at, and how many values these have.
const DIGIT = 11;
const DIGITS = 1 << DIGIT;

const digits = new Intl.NumberFormat("en-US");
const COUNTS = [[1, ""], [1e3, "k"], [1e6, "M"]];
const TIMES = [[1, " µs"], [1e3, " ms"], [1e6, " s"]];

// A number with commas, or a dash if there is none.
export const number = (value) => (value === null || value === undefined ? "-" : digits.format(value));
export const plural = (count, noun) => `${number(count)} ${noun}${count === 1 ? "" : "s"}`;
export const short = (count) => inUnits(count, COUNTS);
export const duration = (micros) => inUnits(micros, TIMES);
// A stamp as traces have it.
export const stamp = (micros) => `${Math.floor(micros / 1e6)}.${String(Math.floor(micros % 1e6)).padStart(6, "0")}`;

// Three digits of a number, in the largest unit that is not above it.
function inUnits(value, units) {
  const [size, unit] = units.findLast(([least]) => Math.abs(value) >= least) || units[0];
  return `${+(value / size).toPrecision(3)}${unit}`;
}

// Durations that are equally far apart, in one unit and with the digits in which they differ.
export function durations(times) {
  const most = Math.max(...times.map(Math.abs));
  const [size, unit] = TIMES.findLast(([least]) => most >= least) || TIMES[0];
  const step = times.length > 1 ? times[1] - times[0] : 1;
  const places = Math.max(Math.ceil(-Math.log10(step / size) - 1e-9), 0);
  return times.map((time) => `${(time / size).toFixed(places)}${unit}`);
}

// The least of 1, 2 and 5 times a power of ten that is not below a number.
export function roundUp(number) {
  const power = 10 ** Math.floor(Math.log10(number));
  return [1, 2, 5, 10].find((factor) => factor * power >= number * 0.999) * power;
}

// Round numbers from `low` to `high`, at most `most` of them.
export function ticks(low, high, most) {
  const step = roundUp(Math.max((high - low) / Math.max(most, 1), 1e-6));
  const first = Math.ceil(low / step - 1e-9);
  const count = Math.max(Math.floor(high / step + 1e-9) - first + 1, 0);
  return Array.from({ length: count }, (_, at) => +((first + at) * step).toPrecision(12));
}

// The first place in ascending numbers whose number is greater than this one.
export function placeAbove(numbers, number) {
  let low = 0;
  let high = numbers.length;
  while (low < high) {
    const middle = (low + high) >>> 1;
    if (numbers[middle] > number) high = middle;
    else low = middle + 1;
  }
  return low;
}

// The indices of whole numbers below 2^32, from the least number to the greatest: a radix sort by some bits at a time.
export function ascending(numbers) {
  const count = numbers.length;
  let greatest = 0;
  for (let at = 0; at < count; at++) if (numbers[at] > greatest) greatest = numbers[at];
  let order = new Uint32Array(count);
  for (let at = 0; at < count; at++) order[at] = at;
  let other = new Uint32Array(count);
  for (let shift = 0; shift < 32 && greatest >>> shift; shift += DIGIT) {
    const places = new Uint32Array(DIGITS + 1);
    for (let at = 0; at < count; at++) places[((numbers[at] >>> shift) & (DIGITS - 1)) + 1]++;
    for (let digit = 1; digit <= DIGITS; digit++) places[digit] += places[digit - 1];
    for (let at = 0; at < count; at++) other[places[(numbers[order[at]] >>> shift) & (DIGITS - 1)]++] = order[at];
    [order, other] = [other, order];
  }
  return order;
}
