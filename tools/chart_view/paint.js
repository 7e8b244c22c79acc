// Draws a pane: the part of one run that is in sight. Nothing else of the run is looked at.

import { colours, kindColour, kindDashes } from "chart/colours";
import { BY_TIME } from "chart/layout";
import { AGAIN, PASSED_OVER, ROUTES, SENT_AGAIN, firstFrom, seconds } from "chart/timeline";

const FONT = "12px system-ui, 'DejaVu Sans', sans-serif";
const SMALL = "11px system-ui, 'DejaVu Sans', sans-serif";
const PLAIN = 4, MOST_ARROWS = 6000;
const HEAD = 7, NAME_PITCH = 12;
// With more arrows than these in sight, those that end below it are faint.
const CROWD = 120, PASSING = 0.12;

// The least height of a row at which its text is drawn.
export const READABLE = 13;

// `pane` is {x, width, gutter, columnsWidth, textX, columns, run, rows, at, tail, places, span, name};
// `frame` {data, state, height, header, isDark, matches}.
export function paintPane(context, pane, frame) {
  const theme = colours(frame.isDark);
  context.save();
  context.beginPath();
  context.rect(pane.x, 0, pane.width, frame.height);
  context.clip();
  const sight = inSight(pane, frame);
  paintBands(context, pane, frame, theme, sight);
  paintColumns(context, pane, frame, theme);
  clipped(context, pane.x + pane.gutter, pane.columnsWidth, frame, () => paintRows(context, pane, frame, theme, sight));
  paintGutter(context, pane, frame, theme, sight);
  if (pane.textX > 0) paintTexts(context, pane, frame, theme, sight);
  paintHeader(context, pane, frame, theme);
  context.restore();
}

function clipped(context, x, width, frame, paint) {
  context.save();
  context.beginPath();
  context.rect(x, frame.header, width, frame.height - frame.header);
  context.clip();
  paint();
  context.restore();
}

// The first and last place in sight: `first` and `last` of rows, and up to `reach` of arrows that come in from above.
function inSight(pane, frame) {
  const top = frame.state.top, bottom = top + (frame.height - frame.header) / frame.state.zoom;
  const from = (bound, past) => firstFrom(pane.rows.length, (i) => pane.at[i], bound, past);
  return { top, bottom, first: from(top - 1, false), last: from(bottom, true), reach: from(bottom + pane.span, true) };
}

export function yOf(frame, position) {
  const half = frame.layout.scale === BY_TIME ? 4 : frame.state.zoom / 2;
  return frame.header + (position - frame.state.top) * frame.state.zoom + half;
}

function xOf(pane, frame, router) {
  return pane.x + pane.gutter + pane.columns.x.get(router) - frame.state.left;
}

// -- behind the rows

function paintBands(context, pane, frame, theme, sight) {
  context.fillStyle = theme.ground;
  context.fillRect(pane.x, 0, pane.width, frame.height);
  const height = Math.max(3, frame.layout.scale === BY_TIME ? 8 : frame.state.zoom);
  for (let i = sight.first; i < sight.last; i++) {
    const row = pane.rows[i], colour = bandColour(pane, frame, theme, row);
    if (colour !== null) {
      context.fillStyle = colour;
      context.fillRect(pane.x, yOf(frame, pane.at[i]) - height / 2, pane.width, height);
    }
  }
}

function bandColour(pane, frame, theme, row) {
  if (pane.marked === row) return theme.markBand;
  if (pane.parted === row) return theme.partedBand;
  if (pane.chosen === row) return theme.chosen;
  return frame.matches !== null && frame.matches[pane.run.text[row]] ? theme.found : null;
}

function paintColumns(context, pane, frame, theme) {
  context.strokeStyle = theme.line;
  context.lineWidth = 1;
  context.beginPath();
  for (const router of pane.columns.shown) {
    const x = Math.round(xOf(pane, frame, router)) + 0.5;
    if (x < pane.x + pane.gutter || x > pane.x + pane.gutter + pane.columnsWidth) continue;
    context.moveTo(x, frame.header);
    context.lineTo(x, frame.height);
  }
  context.stroke();
}

// -- rows

function paintRows(context, pane, frame, theme, sight) {
  const zoom = frame.layout.scale === BY_TIME ? READABLE : frame.state.zoom;
  if (sight.last - sight.first > MOST_ARROWS) {
    paintDots(context, pane, frame, sight);
  } else if (zoom < PLAIN) {
    paintLines(context, pane, frame, sight);
  } else {
    const alpha = sight.reach - sight.first > CROWD ? PASSING : 1;
    for (let i = sight.last; i < sight.reach; i++) {
      context.globalAlpha = alpha;
      if (pane.tail[i] <= sight.bottom) paintRow(context, pane, frame, theme, i);
    }
    context.globalAlpha = 1;
    for (let i = sight.first; i < sight.last; i++) paintRow(context, pane, frame, theme, i);
  }
  if (pane.chosen !== null && pane.places[pane.chosen] >= 0) {
    paintRow(context, pane, frame, theme, pane.places[pane.chosen]);
  }
}

// Very many rows: a dot a row, and one alone of those that would cover each other.
function paintDots(context, pane, frame, sight) {
  const taken = new Set();
  for (let i = sight.first; i < sight.last; i++) {
    const row = pane.rows[i], y = Math.round(yOf(frame, pane.at[i])), spot = y * 1024 + pane.run.router[row];
    if (taken.has(spot)) continue;
    taken.add(spot);
    context.fillStyle = kindColour(kindName(frame, pane.run, row), frame.isDark);
    context.fillRect(xOf(pane, frame, pane.run.router[row]) - 2, y, 4, 1.5);
  }
}

// Many rows: a thin line a message, all of one kind in one path.
function paintLines(context, pane, frame, sight) {
  const paths = new Map();
  for (let i = sight.first; i < sight.reach; i++) {
    if (pane.tail[i] > sight.bottom) continue;
    const row = pane.rows[i], kind = kindName(frame, pane.run, row);
    if (!paths.has(kind)) paths.set(kind, new Path2D());
    const path = paths.get(kind), x = xOf(pane, frame, pane.run.router[row]), y = yOf(frame, pane.at[i]);
    if (pane.run.sender[row] >= 0) {
      path.moveTo(xOf(pane, frame, pane.run.sender[row]), yOf(frame, pane.tail[i]));
    } else {
      path.moveTo(x - 2, y);
    }
    path.lineTo(x, y);
  }
  context.lineWidth = 0.8;
  for (const [kind, path] of paths) {
    context.strokeStyle = kindColour(kind, frame.isDark);
    context.stroke(path);
  }
}

function kindName(frame, run, row) {
  return frame.data.kinds[run.kind[row]].name;
}

function paintRow(context, pane, frame, theme, i) {
  const row = pane.rows[i], run = pane.run, kind = kindName(frame, run, row);
  const x = xOf(pane, frame, run.router[row]), y = yOf(frame, pane.at[i]);
  const colour = run.isLost(row) ? theme.lost : kindColour(kind, frame.isDark);
  context.strokeStyle = context.fillStyle = colour;
  context.lineWidth = pane.chosen === row ? 2.4 : 1.3;
  if (run.sender[row] >= 0) {
    const from = [xOf(pane, frame, run.sender[row]), yOf(frame, pane.tail[i])];
    if (pane.chosen === row) paintHalo(context, ...from, x, y, theme);
    paintArrow(context, ...from, x, y, kindDashes(kind));
    paintLabel(context, pane, frame, theme, i, colour);
  } else {
    paintGlyph(context, kind, x, y);
  }
  if (run.isLost(row)) paintCross(context, x, y, 5, theme.text);
  if (run.flags[row] & PASSED_OVER) paintCross(context, x, y, 3.5, colour);
  if (run.flags[row] & ROUTES) paintRoutes(context, x + (run.sender[row] > run.router[row] ? -12 : 12), y, theme);
  if (run.flags[row] & (AGAIN | SENT_AGAIN)) paintRing(context, x, y, theme.text);
}

// What sets the chosen arrow off from those that it crosses.
function paintHalo(context, x0, y0, x1, y1, theme) {
  context.save();
  context.strokeStyle = theme.chosen;
  context.lineWidth = 9;
  context.beginPath();
  context.moveTo(x0, y0);
  context.lineTo(x1, y1);
  context.stroke();
  context.restore();
}

function paintArrow(context, x0, y0, x1, y1, dashes) {
  const length = Math.hypot(x1 - x0, y1 - y0);
  if (length < 1) return;
  const dx = (x1 - x0) / length, dy = (y1 - y0) / length;
  context.setLineDash(dashes);
  context.beginPath();
  context.moveTo(x0, y0);
  context.lineTo(x1 - dx * HEAD * 0.6, y1 - dy * HEAD * 0.6);
  context.stroke();
  context.setLineDash([]);
  context.beginPath();
  context.moveTo(x1, y1);
  context.lineTo(x1 - dx * HEAD - dy * HEAD * 0.45, y1 - dy * HEAD + dx * HEAD * 0.45);
  context.lineTo(x1 - dx * HEAD + dy * HEAD * 0.45, y1 - dy * HEAD - dx * HEAD * 0.45);
  context.fill();
}

// The kind's name beside the arrow's head, on the side that it comes from, if there is room for it.
function paintLabel(context, pane, frame, theme, i, colour) {
  const run = pane.run, row = pane.rows[i], label = frame.data.kinds[run.kind[row]].label;
  if (frame.layout.scale !== BY_TIME && frame.state.zoom < READABLE) return;
  context.font = SMALL;
  const width = context.measureText(label).width + 4;
  const x1 = xOf(pane, frame, run.router[row]), x0 = xOf(pane, frame, run.sender[row]);
  if (width + HEAD + 6 > pane.columns.step) return;
  const left = x0 < x1 ? x1 - HEAD - 5 - width : x1 + HEAD + 5;
  const y = yOf(frame, pane.at[i]);
  context.fillStyle = theme.ground;
  context.fillRect(left, y - 6, width, 12);
  context.fillStyle = colour;
  context.textAlign = "left";
  context.textBaseline = "middle";
  context.fillText(label, left + 2, y + 0.5);
}

function paintGlyph(context, kind, x, y) {
  context.beginPath();
  if (kind === "command") {
    context.moveTo(x, y - 6); context.lineTo(x + 6, y); context.lineTo(x, y + 6); context.lineTo(x - 6, y);
    context.fill();
  } else if (kind === "up" || kind === "down") {
    const tip = kind === "up" ? -6 : 6;
    context.moveTo(x, y + tip); context.lineTo(x + 6, y - tip * 0.7); context.lineTo(x - 6, y - tip * 0.7);
    context.fill();
  } else {
    context.arc(x, y, 2.5, 0, 2 * Math.PI);
    context.fill();
  }
}

function paintCross(context, x, y, size, colour) {
  context.strokeStyle = colour;
  context.lineWidth = 1.8;
  context.beginPath();
  context.moveTo(x - size, y - size); context.lineTo(x + size, y + size);
  context.moveTo(x + size, y - size); context.lineTo(x - size, y + size);
  context.stroke();
}

// The sign of a row that changed its router's routes.
function paintRoutes(context, x, y, theme) {
  context.fillStyle = theme.text;
  context.fillRect(x - 6, y - 6, 12, 12);
  context.fillStyle = theme.ground;
  context.font = SMALL;
  context.textAlign = "center";
  context.textBaseline = "middle";
  context.fillText("R", x, y + 1);
}

function paintRing(context, x, y, colour) {
  context.strokeStyle = colour;
  context.lineWidth = 1.4;
  context.beginPath();
  context.arc(x, y, 7, 0, 2 * Math.PI);
  context.stroke();
}

// -- beside the rows

// The time at the first row in sight and of each moment, and the rows' numbers, as far as there is room.
function paintGutter(context, pane, frame, theme, sight) {
  context.fillStyle = theme.ground;
  context.fillRect(pane.x, frame.header, pane.gutter - 4, frame.height - frame.header);
  paintGutterBands(context, pane, frame, theme, sight);
  context.font = SMALL;
  context.textBaseline = "middle";
  let lastTime = -Infinity, lastNumber = -Infinity;
  for (let i = sight.first; i < sight.last; i++) {
    const row = pane.rows[i], y = yOf(frame, pane.at[i]), number = pane.run.number[row];
    if (y < frame.header + 6) continue;
    const isNew = lastTime === -Infinity || pane.run.moment[pane.rows[i - 1]] !== pane.run.moment[row];
    if (isNew && y - lastTime >= 13) {
      paintTime(context, pane, frame, theme, y, pane.run.moment[row]);
      lastTime = y;
    }
    if (y - lastNumber >= 13) {
      context.fillStyle = theme.faint;
      context.textAlign = "right";
      context.fillText(number > 0 ? String(number) : "\u2013", pane.x + 44, y);
      lastNumber = y;
    }
  }
}

function paintGutterBands(context, pane, frame, theme, sight) {
  const height = Math.max(3, frame.layout.scale === BY_TIME ? 8 : frame.state.zoom);
  for (let i = sight.first; i < sight.last; i++) {
    const colour = bandColour(pane, frame, theme, pane.rows[i]);
    if (colour !== null) {
      context.fillStyle = colour;
      context.fillRect(pane.x, yOf(frame, pane.at[i]) - height / 2, pane.gutter - 4, height);
    }
  }
}

function paintTime(context, pane, frame, theme, y, moment) {
  const isByTime = frame.layout.scale === BY_TIME, above = isByTime ? y : y - frame.state.zoom / 2;
  context.strokeStyle = theme.line;
  context.lineWidth = 1;
  context.beginPath();
  context.moveTo(pane.x + (isByTime ? pane.gutter - 7 : 48), Math.round(above) + 0.5);
  context.lineTo(pane.x + pane.gutter - 4, Math.round(above) + 0.5);
  context.stroke();
  context.fillStyle = theme.text;
  context.textAlign = "right";
  context.fillText(seconds(frame.data, moment), pane.x + pane.gutter - 8, y);
}

function paintTexts(context, pane, frame, theme, sight) {
  if (frame.state.zoom < READABLE) return;
  context.font = SMALL;
  context.textBaseline = "middle";
  context.textAlign = "left";
  for (let i = sight.first; i < sight.last; i++) {
    const row = pane.rows[i];
    context.fillStyle = pane.run.isLost(row) ? theme.faint : theme.text;
    const text = frame.data.routers[pane.run.router[row]].name + ": " + pane.run.textOf(row);
    context.fillText(text.length > 200 ? text.slice(0, 200) + "\u2026" : text, pane.textX, yOf(frame, pane.at[i]));
  }
}

function paintHeader(context, pane, frame, theme) {
  context.fillStyle = theme.head;
  context.fillRect(pane.x, 0, pane.width, frame.header);
  context.fillStyle = theme.line;
  context.fillRect(pane.x, frame.header - 1, pane.width, 1);
  context.fillStyle = theme.faint;
  context.font = SMALL;
  context.textBaseline = "bottom";
  context.textAlign = "right";
  context.fillText("row", pane.x + 44, frame.header - 6);
  context.fillText("second", pane.x + pane.gutter - 8, frame.header - 6);
  clippedHead(context, pane, frame, () => paintNames(context, pane, frame, theme));
  if (frame.layout.panes.length > 1) {
    context.textAlign = "left";
    context.textBaseline = "top";
    context.fillStyle = theme.text;
    context.fillText(pane.name, pane.x + 6, 4);
  }
}

function clippedHead(context, pane, frame, paint) {
  context.save();
  context.beginPath();
  context.rect(pane.x + pane.gutter - 4, 0, pane.columnsWidth + 8, frame.header);
  context.clip();
  paint();
  context.restore();
}

function paintNames(context, pane, frame, theme) {
  context.font = FONT;
  context.fillStyle = theme.text;
  const every = frame.isUpright ? Math.ceil(NAME_PITCH / pane.columns.step) : 1;
  for (let place = 0; place < pane.columns.shown.length; place += every) {
    const router = pane.columns.shown[place];
    const x = xOf(pane, frame, router), name = frame.data.routers[router].name;
    if (frame.isUpright) {
      context.save();
      context.translate(x, frame.header - 6);
      context.rotate(-Math.PI / 2);
      context.textAlign = "left";
      context.textBaseline = "middle";
      context.fillText(name, 0, 0);
      context.restore();
    } else {
      context.textAlign = "center";
      context.textBaseline = "bottom";
      context.fillText(name, x, frame.header - 6);
    }
  }
}

// The font by which the width of names is measured.
export const NAME_FONT = FONT;
