// The chart: one canvas with a pane for each run. It draws, scrolls, zooms, filters, searches and lets rows be chosen,
// and knows nothing of the page around it: `onChange` is called when its state changes, and `state` and `setState`
// give and take all that another page needs to show the same.

import { NAME_FONT, READABLE, paintPane, yOf } from "chart/paint";
import { BY_ROWS, BY_TIME, columnsOf, layOut } from "chart/layout";
import { Timeline, firstFrom, matchingTexts } from "chart/timeline";

const SIGHT_ROWS = 30, GUTTER = 112, LEAST_ZOOM = 0.002, ROW_ZOOM = 18, TEXT_FROM = 700, LEAST_COLUMNS = 0.45;

export class ChartView {
  constructor(canvas, data, onChange) {
    this.canvas = canvas;
    this.data = data;
    this.onChange = onChange;
    this.runs = data.runs.map((_, index) => new Timeline(data, index));
    this.state = { top: 0, left: 0, zoom: ROW_ZOOM, column: 0, scale: BY_ROWS, texts: true, find: "", chosen: null,
                   filter: { kinds: this.tickKinds(), routers: new Set() } };
    this.isDark = false;
    this.waits = false;
    this.afterPaint = [];
    this.marked = this.runs.map((run, index) => (index === 0 && data.mark ? run.place(data.mark) : -1));
    this.parted = this.runs.map((_, index) => (data.parted ? data.parted[index] : -1));
    this.layAnew();
    this.listen();
  }

  // The kind tick is hidden at first, unless there is nothing else.
  tickKinds() {
    const tick = this.data.kinds.findIndex((kind) => kind.name === "tick");
    return new Set(this.runs.some((run) => run.kind.some((kind) => kind !== tick)) ? [tick] : []);
  }

  // -- state

  // Takes a part of the state; what isn't named stays.
  setState(part) {
    const needsLayout = ["filter", "scale", "chosen"].some((name) => name in part) && !this.isChosenInSight(part);
    Object.assign(this.state, part);
    if ("find" in part) this.matches = matchingTexts(this.data.texts, this.state.find);
    if (needsLayout) this.layAnew();
    if ("find" in part || needsLayout) this.stale();
    this.changed();
  }

  // Whether nothing but the chosen row changes, and that one is shown already.
  isChosenInSight(part) {
    if (Object.keys(part).join() !== "chosen") return false;
    return part.chosen === null || this.layout.panes[part.chosen.run].places[part.chosen.row] >= 0;
  }

  layAnew() {
    const always = this.runs.map((_, index) => {
      const chosen = this.state.chosen;
      const rows = [this.marked[index], this.parted[index], chosen && chosen.run === index ? chosen.row : -1];
      return new Set(rows.filter((row) => row >= 0));
    });
    if (this.matches === undefined) this.matches = null;
    this.layout = layOut(this.runs, this.state.filter, this.state.scale, always);
    this.clampTop();
  }

  stale() {
    for (const part of this.afterPaint) part.forget();
  }

  changed() {
    this.paintSoon();
    this.onChange(this);
  }

  // -- geometry

  headerHeight() {
    return (this.isUpright() ? this.widestName() + 16 : 26) + (this.runs.length > 1 ? 16 : 0);
  }

  // Whether the columns are too narrow for the names.
  isUpright() {
    return this.widestName() + 8 > this.columns().step;
  }

  // The width of the widest name, in pixels.
  widestName() {
    if (this.widest === undefined) {
      const context = this.canvas.getContext("2d");
      context.font = NAME_FONT;
      this.widest = Math.max(24, ...this.data.routers.map((router) => context.measureText(router.name).width));
    }
    return this.widest;
  }

  paneWidth() {
    return this.canvas.clientWidth / this.runs.length;
  }

  hasTexts() {
    const { texts, scale, zoom } = this.state;
    return texts && scale === BY_ROWS && zoom >= READABLE && this.paneWidth() >= TEXT_FROM;
  }

  columnsWidth() {
    const room = this.paneWidth() - GUTTER;
    if (!this.hasTexts()) return room;
    const count = this.data.routers.length - this.state.filter.routers.size;
    return Math.min(room * (1 - LEAST_COLUMNS), Math.max(room * LEAST_COLUMNS, count * 26));
  }

  columns() {
    return columnsOf(this.data.routers.length, this.state.filter.routers, this.columnsWidth(), this.state.column);
  }

  sightHeight() {
    return Math.max(1, this.canvas.clientHeight - this.headerHeight());
  }

  clampTop() {
    const most = this.layout.extent - this.sightHeight() / this.state.zoom;
    this.state.top = Math.max(0, Math.min(this.state.top, most));
    const wide = this.columns().width - this.columnsWidth();
    this.state.left = Math.max(0, Math.min(this.state.left, wide));
  }

  panes() {
    const width = this.paneWidth(), columns = this.columns(), columnsWidth = this.columnsWidth();
    return this.layout.panes.map((placed, index) => {
      const x = index * width, chosen = this.state.chosen;
      return { ...placed, x, width, gutter: GUTTER, columns, columnsWidth, run: this.runs[index],
               name: this.data.runs[index].name, marked: this.marked[index], parted: this.parted[index],
               chosen: chosen !== null && chosen.run === index ? chosen.row : null,
               textX: this.hasTexts() ? x + GUTTER + columnsWidth + 10 : 0 };
    });
  }

  frame() {
    return { data: this.data, state: this.state, layout: this.layout, matches: this.matches, isDark: this.isDark,
             height: this.canvas.clientHeight, header: this.headerHeight(), isUpright: this.isUpright() };
  }

  // -- painting

  paintSoon() {
    if (this.waits) return;
    this.waits = true;
    requestAnimationFrame(() => {
      this.waits = false;
      this.paint();
    });
  }

  paint() {
    const ratio = window.devicePixelRatio || 1, { clientWidth: width, clientHeight: height } = this.canvas;
    if (this.canvas.width !== Math.round(width * ratio) || this.canvas.height !== Math.round(height * ratio)) {
      this.canvas.width = Math.round(width * ratio);
      this.canvas.height = Math.round(height * ratio);
    }
    const context = this.canvas.getContext("2d");
    context.setTransform(ratio, 0, 0, ratio, 0, 0);
    const frame = this.frame();
    for (const pane of this.panes()) paintPane(context, pane, frame);
    for (const part of this.afterPaint) part.paint();
  }

  // -- moving

  scrollTo(top) {
    this.state.top = top;
    this.clampTop();
    this.changed();
  }

  // Zooms by a factor; what is at this height of the canvas stays there.
  zoomBy(factor, height = this.canvas.clientHeight / 2) {
    const above = Math.max(0, height - this.headerHeight()), here = this.state.top + above / this.state.zoom;
    const least = Math.max(LEAST_ZOOM, this.sightHeight() / this.layout.extent / 1.02);
    const most = this.state.scale === BY_TIME ? 1e6 : 60;
    this.state.zoom = Math.max(Math.min(least, ROW_ZOOM), Math.min(most, this.state.zoom * factor));
    this.scrollTo(here - above / this.state.zoom);
  }

  fit() {
    this.state.zoom = this.sightHeight() / this.layout.extent;
    this.scrollTo(0);
  }

  setScale(scale) {
    const spot = this.state.chosen || this.rowAtTop();
    this.setState({ scale });
    this.state.zoom = scale === BY_TIME ? this.zoomOfTime(spot) : ROW_ZOOM;
    if (this.state.chosen !== null) this.show(spot);
    else if (spot !== null) this.scrollTo(this.positionOf(spot));
  }

  // The zoom at which some rows from a spot on are in sight; never less than the whole run.
  zoomOfTime(spot) {
    const { rows, at, places } = this.layout.panes[spot === null ? 0 : spot.run];
    const first = Math.max(0, spot === null ? 0 : places[spot.row]);
    const last = Math.min(rows.length - 1, first + SIGHT_ROWS);
    const span = last > first ? at[last] - at[first] : 0;
    return this.sightHeight() / Math.min(this.layout.extent, Math.max(span * 1.2, 1e-3));
  }

  rowAtTop() {
    const pane = this.layout.panes[0];
    const place = firstFrom(pane.rows.length, (i) => pane.at[i], this.state.top);
    return place < pane.rows.length ? { run: 0, row: pane.rows[place] } : null;
  }

  positionOf(spot) {
    const pane = this.layout.panes[spot.run], place = pane.places[spot.row];
    return place < 0 ? 0 : pane.at[place];
  }

  // Chooses a row, or none, and brings it into sight.
  choose(spot) {
    this.setState({ chosen: spot });
    if (spot !== null) this.show(spot);
  }

  show(spot) {
    const at = this.positionOf(spot), sight = this.sightHeight() / this.state.zoom, margin = Math.min(3, sight / 4);
    if (at < this.state.top + margin || at > this.state.top + sight - margin - 1) this.scrollTo(at - sight / 3);
    else this.changed();
  }

  // The next row from the chosen one, in a direction, that passes a test.
  step(direction, test = () => true) {
    const chosen = this.state.chosen || { run: 0, row: -1 }, pane = this.layout.panes[chosen.run];
    const from = this.state.chosen === null ? firstFrom(pane.rows.length, (i) => pane.at[i], this.state.top) - direction
                                            : pane.places[chosen.row];
    for (let i = from + direction; i >= 0 && i < pane.rows.length; i += direction) {
      if (test(pane.rows[i], this.runs[chosen.run])) {
        this.choose({ run: chosen.run, row: pane.rows[i] });
        return true;
      }
    }
    return false;
  }

  stepOfRouter(direction) {
    const chosen = this.state.chosen;
    if (chosen === null) return this.step(direction);
    const router = this.runs[chosen.run].router[chosen.row];
    return this.step(direction, (row, run) => run.router[row] === router);
  }

  stepOfMatch(direction) {
    return this.matches !== null && this.step(direction, (row, run) => this.matches[run.text[row]]);
  }

  // -- the pointer

  listen() {
    const canvas = this.canvas;
    canvas.addEventListener("wheel", (event) => this.onWheel(event), { passive: false });
    canvas.addEventListener("pointerdown", (event) => this.onDown(event));
    canvas.addEventListener("pointermove", (event) => this.onMove(event));
    canvas.addEventListener("pointerup", (event) => this.onUp(event));
    new ResizeObserver(() => {
      this.clampTop();
      this.paintSoon();
    }).observe(canvas);
  }

  onWheel(event) {
    event.preventDefault();
    if (event.ctrlKey || event.metaKey) {
      this.zoomBy(Math.exp(-event.deltaY * 0.002), event.offsetY);
    } else {
      this.state.left += event.shiftKey ? event.deltaY : event.deltaX;
      this.scrollTo(this.state.top + (event.shiftKey ? 0 : event.deltaY / this.state.zoom));
    }
  }

  onDown(event) {
    this.canvas.setPointerCapture(event.pointerId);
    this.drag = { x: event.offsetX, y: event.offsetY, left: this.state.left, top: this.state.top, moved: false };
  }

  onMove(event) {
    if (!this.drag) return;
    const dx = event.offsetX - this.drag.x, dy = event.offsetY - this.drag.y;
    if (Math.hypot(dx, dy) > 4) this.drag.moved = true;
    if (!this.drag.moved) return;
    this.state.left = this.drag.left - dx;
    this.scrollTo(this.drag.top - dy / this.state.zoom);
  }

  onUp(event) {
    const drag = this.drag;
    this.drag = null;
    if (drag && !drag.moved) this.choose(this.rowAt(event.offsetX, event.offsetY));
  }

  // The row at a point: the nearest by height, and of those the nearest by column.
  rowAt(x, y) {
    const index = Math.min(this.runs.length - 1, Math.floor(x / this.paneWidth()));
    const pane = this.panes()[index], frame = this.frame();
    const reach = Math.max(8, this.state.scale === BY_TIME ? 8 : this.state.zoom / 2);
    const far = (i) => {
      const column = pane.x + GUTTER + pane.columns.x.get(pane.run.router[pane.rows[i]]) - this.state.left;
      return Math.abs(yOf(frame, pane.at[i]) - y) * 8 + Math.abs(column - x) * 0.02;
    };
    const first = firstFrom(pane.rows.length, (i) => yOf(frame, pane.at[i]), y - reach);
    let best = -1;
    for (let i = first; i < pane.rows.length && yOf(frame, pane.at[i]) <= y + reach; i++) {
      if (best < 0 || far(i) < far(best)) best = i;
    }
    return best < 0 || y < frame.header ? null : { run: index, row: pane.rows[best] };
  }
}
