// Where each visible row is along the time axis, in units: rows, or seconds.

import { firstFrom } from "chart/timeline";

export const BY_ROWS = "rows", BY_TIME = "time";
const NARROWEST = 8;

// The layout of all runs: per run the visible rows, their positions and those at which they were sent, the place of
// each row among the visible ones (-1: hidden), the greatest distance between both positions, and the whole extent.
export function layOut(runs, filter, scale, always) {
  const lists = runs.map((run, index) => run.visible(filter, always[index]));
  const placed = scale === BY_TIME ? byTime(runs, lists) : byRows(runs, lists);
  const panes = runs.map((run, index) => {
    const rows = lists[index], at = placed.at[index], places = placesOf(run, rows);
    const tail = scale === BY_TIME ? timeTails(run, rows) : rowTails(run, rows, at, places, placed.extent);
    let span = 0;
    for (let i = 0; i < rows.length; i++) span = Math.max(span, at[i] - tail[i]);
    return { rows, at, tail, places, span };
  });
  return { panes, extent: Math.max(1, placed.extent), scale };
}

function placesOf(run, rows) {
  const places = new Int32Array(run.count).fill(-1);
  rows.forEach((row, place) => { places[row] = place; });
  return places;
}

function byTime(runs, lists) {
  const at = lists.map((rows, index) => Float64Array.from(rows, (row) => runs[index].moment[row] / runs[index].period));
  const last = Math.max(0, ...at.map((list) => (list.length === 0 ? 0 : list[list.length - 1])));
  return { at, extent: last + 1 };
}

// One row below the other; what two runs have at one moment stands side by side.
function byRows(runs, lists) {
  const at = lists.map((rows) => new Float64Array(rows.length));
  const next = lists.map(() => 0);
  let slot = 0;
  for (;;) {
    const momentOf = (rows, r) => (next[r] < rows.length ? runs[r].moment[rows[next[r]]] : Infinity);
    const moment = Math.min(...lists.map(momentOf));
    if (moment === Infinity) return { at, extent: slot };
    slot += Math.max(...lists.map((rows, r) => placeMoment(runs[r], rows, at[r], next, r, moment, slot)));
  }
}

// Places the rows of one moment from a slot on; gives how many there are.
function placeMoment(run, rows, at, next, index, moment, slot) {
  let count = 0;
  while (next[index] < rows.length && run.moment[rows[next[index]]] === moment) {
    at[next[index]] = slot + count;
    next[index] += 1;
    count += 1;
  }
  return count;
}

function timeTails(run, rows) {
  return Float64Array.from(rows, (row) => (run.sender[row] < 0 ? run.moment[row] : run.sent[row]) / run.period);
}

// A message begins at the row that sent it, or, if that is hidden, between the rows before and after its sending.
function rowTails(run, rows, at, places, extent) {
  return Float64Array.from(rows, (row, place) => {
    if (run.sender[row] < 0) return at[place];
    const cause = run.cause[row] < 0 ? -1 : places[run.cause[row]];
    if (cause >= 0) return at[cause];
    const after = firstFrom(rows.length, (i) => run.moment[rows[i]], run.sent[row], true);
    return (after < rows.length ? at[after] : extent) - 0.5;
  });
}

// The columns of the routers that are shown: x of each router from the left of the columns, and their width.
export function columnsOf(count, hidden, width, wanted) {
  const shown = [];
  for (let router = 0; router < count; router++) if (!hidden.has(router)) shown.push(router);
  const fit = width / Math.max(1, shown.length);
  const step = wanted > 0 ? Math.max(wanted, NARROWEST) : Math.max(fit, NARROWEST);
  const x = new Map(shown.map((router, place) => [router, (place + 0.5) * step]));
  return { shown, x, step, width: step * shown.length };
}
