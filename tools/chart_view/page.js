// The page around the chart: search, filters, what is said of the chosen row, keys, and the place in the address.

import { kindColour } from "chart/colours";
import { BY_ROWS, BY_TIME } from "chart/layout";
import { Overview } from "chart/overview";
import { AGAIN, SENT_AGAIN, TAKEN_BACK, UNSENT, seconds } from "chart/timeline";
import { ChartView } from "chart/view";

const FLAG_WORDS = [
  [AGAIN, "taken back, and handled again"],
  [SENT_AGAIN, "unsent, and sent again"], [TAKEN_BACK, "taken back, and not handled again"],
  [UNSENT, "unsent, and not sent again"],
];
const HELP = [
  ["\u2191 \u2193", "the row before, the row after"], ["k j", "the router's event before, and after"],
  ["/", "search; #34 goes to row 34"], ["n N", "the match after, and before"], ["+ \u2212", "zoom"],
  ["[ ]", "columns narrower, wider"], ["f", "the whole run"], ["s", "rows or seconds downwards"],
  ["t", "text beside the rows"], ["m", "the mark"], ["p", "where two runs part"], ["d", "this panel"],
  ["Home End", "the beginning, the end"], ["Esc", "no row, no search"],
  ["wheel", "moves; with Ctrl zooms, with Shift goes sideways"],
  ["\u25CF \u25C6", "tick, command"], ["\u25BC \u25B2", "a port goes down, up"],
  ["\u00D7 small", "passed over"], ["\u2715 large", "taken back or unsent"],
  ["\u25CB", "taken back or unsent, and come again"], ["R", "changed the router's routes"],
];

// The width in pixels below which the panel is below the chart, as in style.css.
const NARROW = 900;

const byId = (id) => document.getElementById(id);

export function start(data) {
  const view = new ChartView(byId("chart"), data, (changed) => onChange(page, changed));
  const page = { data, view, theme: null, waits: false };
  const overview = new Overview(byId("overview"), view);
  view.afterPaint.push(overview);
  byId("title").textContent = data.title;
  if (window.innerWidth < NARROW) {
    document.querySelectorAll("#panel details").forEach((part) => part.removeAttribute("open"));
  }
  makeKinds(page);
  makeRouters(page);
  makeHelp();
  listen(page);
  readAddress(page);
  window.addEventListener("hashchange", () => readAddress(page));
  window.matchMedia("(prefers-color-scheme: dark)").addEventListener("change", () => setTheme(page, page.theme));
  byId("mark").hidden = view.marked[0] < 0;
  byId("part").hidden = data.parted === null;
  window.chart = view;
}

function onChange(page, view) {
  byId("scale").textContent = view.state.scale === BY_TIME ? "by seconds" : "by rows";
  byId("texts").setAttribute("aria-pressed", String(view.hasTexts()));
  showFound(view);
  showDetails(page, view);
  if (page === undefined || page.waits) return;
  page.waits = true;
  setTimeout(() => {
    page.waits = false;
    writeAddress(page);
  }, 150);
}

// -- what is told

function showFound(view) {
  if (view.matches === null) {
    byId("found").textContent = "";
    return;
  }
  let count = 0;
  view.layout.panes.forEach((pane, index) => {
    for (const row of pane.rows) if (view.matches[view.runs[index].text[row]]) count += 1;
  });
  byId("found").textContent = count === 1 ? "1 match" : count.toLocaleString("en") + " matches";
}

function element(tag, text, name = "") {
  const made = document.createElement(tag);
  made.textContent = text;
  if (name) made.className = name;
  return made;
}

function showDetails(page, view) {
  const chosen = view.state.chosen, key = chosen === null ? "" : chosen.run + " " + chosen.row;
  const details = byId("details");
  if (details.dataset.key === key && details.childNodes.length > 0) return;
  details.dataset.key = key;
  const nothing = [element("p", "Click a row, or press \u2193.", "faint")];
  details.replaceChildren(...(chosen === null ? nothing : told(view, chosen)));
}

// What is said of a row: number, time, router, sender, text, and what became of it.
function told(view, { run: index, row }) {
  const { data } = view, run = view.runs[index], name = (router) => data.routers[router].name;
  const number = run.number[row] > 0 ? "Row " + run.number[row] : "No row of the trace";
  const parts = [element("h2", number + " at " + name(run.router[row]))];
  if (view.runs.length > 1) parts.push(element("p", data.runs[index].name, "faint"));
  const moment = run.moment[row], group = Math.floor(moment / data.period), sum = moment % data.period;
  parts.push(element("p", seconds(data, moment) + " s (group " + group + ", moment " + sum + ")", "faint"));
  if (run.sender[row] >= 0) {
    const from = "from " + name(run.sender[row]) + ", sent at " + seconds(data, run.sent[row]) + " s";
    parts.push(element("p", from, "faint"));
  }
  parts.push(...textParts(run.textOf(row)));
  for (const [flag, words] of FLAG_WORDS) if (run.flags[row] & flag) parts.push(element("p", words));
  if (view.marked[index] === row) parts.push(element("p", "the debugger stopped here"));
  if (view.parted[index] === row) parts.push(element("p", "the first row at which the runs part"));
  return parts;
}

// A text: why it was passed over, the routes that it changed, what came with its parts behind the colon as a list, and
// what a journal says of it (in brackets).
function textParts(text) {
  const [, front, steps] = /^(.*?)(?: \[([^\]]*step[^\]]*)\])?$/.exec(text) || [null, text];
  const pieces = front.split(" \u00B7 "), words = pieces.pop(), made = [];
  const colon = words.indexOf(": "), parts = colon < 0 ? [] : words.slice(colon + 2).split("; ");
  made.push(element("p", parts.length > 1 ? words.slice(0, colon + 1) : words));
  if (parts.length > 1) made.push(list(parts));
  for (const piece of pieces) {
    if (piece.startsWith("R ")) {
      made.push(element("p", "changed the routes:", "faint"), list(piece.slice(2).split("; ")));
    } else {
      made.push(element("p", piece));
    }
  }
  if (steps !== undefined) made.push(element("p", "in the journal:", "faint"), list(steps.split("; ")));
  return made;
}

function list(parts) {
  const made = document.createElement("ul");
  made.replaceChildren(...parts.map((part) => element("li", part)));
  return made;
}

// -- filters

function choice(words, isShown, onToggle) {
  const label = document.createElement("label"), box = document.createElement("input");
  box.type = "checkbox";
  box.checked = isShown;
  box.addEventListener("change", () => onToggle(box.checked));
  label.append(box, words);
  return label;
}

function toggled(set, value, isShown) {
  const made = new Set(set);
  if (isShown) made.delete(value);
  else made.add(value);
  return made;
}

function makeKinds(page) {
  const { data, view } = page, filter = view.state.filter;
  const counts = data.kinds.map(() => 0);
  for (const run of view.runs) for (const kind of run.kind) counts[kind] += 1;
  const made = data.kinds.map((kind, place) => {
    if (counts[place] === 0) return null;
    const label = choice("", !filter.kinds.has(place), (isShown) => {
      const now = view.state.filter;
      view.setState({ filter: { ...now, kinds: toggled(now.kinds, place, isShown) } });
    });
    const swatch = element("span", "", "swatch");
    swatch.style.borderColor = kindColour(kind.name, view.isDark);
    label.append(swatch, kind.label, element("span", counts[place].toLocaleString("en"), "count"));
    return label;
  });
  byId("kinds").replaceChildren(...made.filter((one) => one !== null));
}

function makeRouters(page) {
  const { data, view } = page;
  const all = element("div", "", "all"), show = (routers) => {
    view.setState({ filter: { ...view.state.filter, routers } });
    makeRouters(page);
  };
  for (const [words, routers] of [["all", []], ["none", data.routers.map((_, router) => router)]]) {
    const button = element("button", words);
    button.addEventListener("click", () => show(new Set(routers)));
    all.append(button);
  }
  const made = data.routers.map((router, number) => {
    const words = router.name + " ";
    const label = choice(words, !view.state.filter.routers.has(number), (isShown) => {
      const now = view.state.filter;
      view.setState({ filter: { ...now, routers: toggled(now.routers, number, isShown) } });
    });
    label.append(element("span", router.kind, "count"));
    return label;
  });
  byId("routers").replaceChildren(all, ...made);
}

function makeHelp() {
  byId("help").replaceChildren(...HELP.flatMap(([keys, words]) => [element("dt", keys), element("dd", words)]));
}

// -- theme

function setTheme(page, theme) {
  page.theme = theme;
  const isDark = theme === null ? window.matchMedia("(prefers-color-scheme: dark)").matches : theme === "dark";
  document.documentElement.classList.toggle("dark", isDark);
  byId("theme").textContent = isDark ? "dark" : "light";
  page.view.isDark = isDark;
  page.view.stale();
  makeKinds(page);
  page.view.paintSoon();
}

// -- buttons and keys

function listen(page) {
  const { view } = page, find = byId("find");
  find.addEventListener("input", () => view.setState({ find: find.value.startsWith("#") ? "" : find.value }));
  find.addEventListener("keydown", (event) => onFindKey(page, event));
  const clicks = {
    earlier: () => view.stepOfMatch(-1), later: () => view.stepOfMatch(1), closer: () => view.zoomBy(1.3),
    wider: () => view.zoomBy(1 / 1.3), fit: () => view.fit(), scale: () => turnScale(view),
    texts: () => turnTexts(view),
    mark: () => goMark(view), part: () => goPart(view), side: () => turnPanel(view),
    theme: () => { setTheme(page, view.isDark ? "light" : "dark"); writeAddress(page); },
  };
  for (const [id, act] of Object.entries(clicks)) byId(id).addEventListener("click", act);
  document.addEventListener("keydown", (event) => onKey(page, event));
}

function onFindKey(page, event) {
  const { view } = page, find = byId("find");
  if (event.key === "Enter" && find.value.startsWith("#")) {
    const row = view.runs[0].place(Number(find.value.slice(1)));
    if (row >= 0) view.choose({ run: 0, row });
  } else if (event.key === "Enter") {
    view.stepOfMatch(event.shiftKey ? -1 : 1);
  } else if (event.key === "Escape") {
    find.value = "";
    view.setState({ find: "" });
    byId("chart").focus();
  }
}

function turnScale(view) {
  view.setScale(view.state.scale === BY_TIME ? BY_ROWS : BY_TIME);
}

function turnTexts(view) {
  view.setState({ texts: !view.state.texts });
}

function turnPanel(view) {
  byId("panel").classList.toggle("away");
  view.changed();
}

function goMark(view) {
  if (view.marked[0] >= 0) view.choose({ run: 0, row: view.marked[0] });
}

function goPart(view) {
  if (view.parted[0] >= 0) view.choose({ run: 0, row: view.parted[0] });
}

function columnsBy(view, factor) {
  view.setState({ column: Math.max(8, Math.min(400, view.columns().step * factor)) });
}

function clear(view) {
  byId("find").value = "";
  view.setState({ chosen: null, find: "" });
}

const KEYS = {
  ArrowDown: (view) => view.step(1), ArrowUp: (view) => view.step(-1), j: (view) => view.stepOfRouter(1),
  k: (view) => view.stepOfRouter(-1), n: (view) => view.stepOfMatch(1), N: (view) => view.stepOfMatch(-1),
  "+": (view) => view.zoomBy(1.3), "=": (view) => view.zoomBy(1.3), "-": (view) => view.zoomBy(1 / 1.3),
  "[": (view) => columnsBy(view, 1 / 1.25), "]": (view) => columnsBy(view, 1.25), f: (view) => view.fit(),
  s: turnScale, t: turnTexts, m: goMark, p: goPart, d: turnPanel, Escape: clear,
  Home: (view) => view.scrollTo(0), End: (view) => view.scrollTo(view.layout.extent),
  PageDown: (view) => view.scrollTo(view.state.top + (view.sightHeight() / view.state.zoom) * 0.9),
  PageUp: (view) => view.scrollTo(view.state.top - (view.sightHeight() / view.state.zoom) * 0.9),
  "/": () => byId("find").focus(),
};

function onKey(page, event) {
  if (event.target === byId("find") || event.ctrlKey || event.metaKey || event.altKey) return;
  const act = KEYS[event.key];
  if (act === undefined) return;
  event.preventDefault();
  act(page.view);
}

// -- the address

// The view in the address: what isn't there is as at the beginning.
function writeAddress(page) {
  const { view, data } = page, { state } = view, parts = new URLSearchParams();
  if (state.chosen !== null) parts.set("row", state.chosen.run + "." + state.chosen.row);
  parts.set("top", state.top.toFixed(2));
  parts.set("zoom", state.zoom.toPrecision(5));
  if (state.column > 0) parts.set("column", state.column.toFixed(1));
  if (state.scale !== BY_ROWS) parts.set("scale", state.scale);
  if (!state.texts) parts.set("text", "no");
  parts.set("hide", [...state.filter.kinds].map((kind) => data.kinds[kind].name).join(","));
  if (state.filter.routers.size > 0) {
    parts.set("without", [...state.filter.routers].map((router) => data.routers[router].name).join(","));
  }
  if (state.find !== "") parts.set("find", state.find);
  if (page.theme !== null) parts.set("theme", page.theme);
  page.address = "#" + parts;
  history.replaceState(null, "", page.address);
}

function readAddress(page) {
  if (location.hash === page.address && page.address !== undefined) return;
  const parts = new URLSearchParams(location.hash.slice(1)), { view, data } = page;
  setTheme(page, ["light", "dark"].includes(parts.get("theme")) ? parts.get("theme") : null);
  const filter = { kinds: named(data.kinds, parts.get("hide"), view.tickKinds()),
                   routers: named(data.routers, parts.get("without"), new Set()) };
  byId("find").value = parts.get("find") || "";
  view.setState({ filter, find: parts.get("find") || "", texts: parts.get("text") !== "no",
                  chosen: chosenOf(view, parts), scale: parts.get("scale") === BY_TIME ? BY_TIME : BY_ROWS,
                  column: numberOf(parts, "column", 0) });
  view.state.zoom = numberOf(parts, "zoom", view.state.zoom);
  makeKinds(page);
  makeRouters(page);
  if (parts.has("top")) view.scrollTo(numberOf(parts, "top", 0));
  else if (view.state.chosen !== null) view.show(view.state.chosen);
  else goFirst(view);
}

// A fresh page begins at the mark, or where the runs part, or at the first row.
function goFirst(view) {
  if (view.marked[0] >= 0) goMark(view);
  else if (view.parted[0] >= 0) goPart(view);
}

function numberOf(parts, name, otherwise) {
  const number = Number(parts.get(name));
  return parts.has(name) && Number.isFinite(number) && number >= 0 ? number : otherwise;
}

function named(list, text, otherwise) {
  if (text === null) return otherwise;
  const names = text.split(",");
  return new Set(list.map((_, place) => place).filter((place) => names.includes(list[place].name)));
}

function chosenOf(view, parts) {
  const [run, row] = (parts.get("row") || "").split(".").map(Number);
  return view.runs[run] !== undefined && row >= 0 && row < view.runs[run].count ? { run, row } : null;
}
