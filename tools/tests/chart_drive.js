// Drives a page with a chart as a user would, and leaves what it saw in the document, as JSON, for the test to read.
// The test puts this behind the page's own module.

const view = window.chart, seen = {};
const key = (name) => document.dispatchEvent(new KeyboardEvent("keydown", { key: name, bubbles: true }));
const chosen = () => view.state.chosen && view.runs[view.state.chosen.run].number[view.state.chosen.row];
const shown = () => view.layout.panes[0].rows.length;
const settle = () => new Promise((resolve) => setTimeout(resolve, 250));

function timed(act) {
  const begin = performance.now();
  act();
  return performance.now() - begin;
}

function type(text) {
  const find = document.getElementById("find");
  find.value = text;
  find.dispatchEvent(new Event("input", { bubbles: true }));
}

async function drive() {
  seen.rows = view.runs[0].count;
  seen.shown = shown();
  key("ArrowDown");
  seen.first = chosen();
  key("j");
  seen.second = chosen();
  seen.sameRouter = view.runs[0].router[view.runs[0].place(seen.first)] === view.runs[0].router[view.runs[0].place(seen.second)];
  key("k");
  seen.back = chosen();
  seen.details = document.getElementById("details").textContent;
  await settle();
  seen.address = location.hash;
  type(seen.details.includes("Hello") ? "hello" : "flood");
  seen.found = document.getElementById("found").textContent;
  key("n");
  seen.match = chosen();
  key("Escape");
  document.querySelector("#kinds input").click();
  seen.afterKind = shown();
  document.querySelector("#routers input").click();
  seen.afterRouter = shown();
  const box = view.canvas.getBoundingClientRect();
  const at = { clientX: box.left + 300, clientY: box.top + view.headerHeight() + 60, bubbles: true, pointerId: 1 };
  view.canvas.setPointerCapture = () => {};
  view.canvas.dispatchEvent(new PointerEvent("pointerdown", at));
  view.canvas.dispatchEvent(new PointerEvent("pointerup", at));
  seen.clicked = chosen();
  seen.paint = timed(() => view.paint());
  key("f");
  seen.paintAll = timed(() => view.paint());
  seen.wholeHeight = view.layout.extent * view.state.zoom / view.sightHeight();
  key("s");
  seen.scale = view.state.scale;
  seen.paintTime = timed(() => view.paint());
  seen.layAnew = timed(() => view.layAnew());
  await settle();
  seen.lastAddress = location.hash;
}

drive().catch((error) => { seen.error = String(error.stack || error); }).finally(() => {
  const told = document.createElement("pre");
  told.id = "seen";
  told.textContent = JSON.stringify(seen);
  document.body.append(told);
});
