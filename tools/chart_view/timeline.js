// A run's rows in columns, one value a row, and what filters and a search leave of them.
//
// A row has a number in the trace (0: taken back), a moment, a router, a kind, a sender and the moment of sending (-1:
// nobody sent it), the place of the row that caused it (-1: unknown), flags, and a text.

export const PASSED_OVER = 1, AGAIN = 2, SENT_AGAIN = 4, TAKEN_BACK = 8, UNSENT = 16, ROUTES = 32;

export class Timeline {
  constructor(data, index) {
    Object.assign(this, data.runs[index]);
    this.texts = data.texts;
    this.period = data.period;
    this.count = this.moment.length;
  }

  // The places of the rows that a filter leaves; `always` are shown whatever the filter says.
  visible(filter, always) {
    const places = [];
    for (let row = 0; row < this.count; row++) {
      if (always.has(row) || this.passes(filter, row)) places.push(row);
    }
    return Int32Array.from(places);
  }

  // A row is left if its kind is shown, and its router, and its sender if it has one.
  passes(filter, row) {
    if (filter.kinds.has(this.kind[row]) || filter.routers.has(this.router[row])) return false;
    return this.sender[row] < 0 || !filter.routers.has(this.sender[row]);
  }

  // The place of the row with this number in the trace, or -1.
  place(number) {
    return this.number.indexOf(number);
  }

  textOf(row) {
    return this.texts[this.text[row]];
  }

  isLost(row) {
    return (this.flags[row] & (TAKEN_BACK | UNSENT)) !== 0;
  }
}

// Which texts hold all words of a search, as one value a text; null if nothing is searched for.
export function matchingTexts(texts, find) {
  const words = find.toLowerCase().split(/\s+/).filter((word) => word !== "");
  if (words.length === 0) return null;
  return texts.map((text) => {
    const lower = text.toLowerCase();
    return words.every((word) => lower.includes(word));
  });
}

// The first place of a rising list whose value isn't below (or, with `past`, is above) a bound.
export function firstFrom(length, valueAt, bound, past = false) {
  let low = 0, high = length;
  while (low < high) {
    const middle = (low + high) >> 1;
    const value = valueAt(middle);
    if (value < bound || (past && value === bound)) low = middle + 1;
    else high = middle;
  }
  return low;
}

// A moment in seconds, one second a group.
export function seconds(data, moment) {
  const whole = Math.floor(moment / data.period);
  if (data.digits === 0) return String(whole);
  const part = Math.floor(((moment - whole * data.period) * 10 ** data.digits) / data.period);
  return whole + "." + String(part).padStart(data.digits, "0");
}
