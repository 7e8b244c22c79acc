// The whole run in a strip beside the chart: how many rows of each kind there are at each height, and what is in sight.

import { colours, kindColour } from "chart/colours";

export class Overview {
  constructor(canvas, view) {
    this.canvas = canvas;
    this.view = view;
    this.kept = null;
    const go = (event) => {
      if (event.buttons === 0) return;
      const state = view.state, sight = view.sightHeight() / state.zoom;
      view.scrollTo((event.offsetY / canvas.clientHeight) * view.layout.extent - sight / 2);
    };
    canvas.addEventListener("pointerdown", go);
    canvas.addEventListener("pointermove", go);
  }

  // To be called when rows, filter, colours or size have changed.
  forget() {
    this.kept = null;
  }

  paint() {
    const ratio = window.devicePixelRatio || 1, width = this.canvas.clientWidth, height = this.canvas.clientHeight;
    if (width === 0 || height === 0) return;
    if (this.canvas.width !== Math.round(width * ratio) || this.canvas.height !== Math.round(height * ratio)) {
      this.canvas.width = Math.round(width * ratio);
      this.canvas.height = Math.round(height * ratio);
      this.kept = null;
    }
    if (this.kept === null) this.kept = this.paintRows(width, height);
    const context = this.canvas.getContext("2d");
    context.setTransform(1, 0, 0, 1, 0, 0);
    context.drawImage(this.kept, 0, 0);
    context.setTransform(ratio, 0, 0, ratio, 0, 0);
    this.paintSight(context, width, height);
  }

  // The bars, on a canvas that is kept.
  paintRows(width, height) {
    const kept = document.createElement("canvas");
    kept.width = this.canvas.width;
    kept.height = this.canvas.height;
    const context = kept.getContext("2d"), ratio = window.devicePixelRatio || 1;
    context.setTransform(ratio, 0, 0, ratio, 0, 0);
    context.fillStyle = colours(this.view.isDark).head;
    context.fillRect(0, 0, width, height);
    const bins = this.countRows(Math.ceil(height / 2));
    const most = Math.max(1, ...bins.map((bin) => bin.total));
    bins.forEach((bin, place) => {
      let x = 2;
      bin.kinds.forEach((count, kind) => {
        const long = Math.max(1, (count / most) * (width - 10));
        context.fillStyle = kindColour(this.view.data.kinds[kind].name, this.view.isDark);
        context.fillRect(x, place * 2, long, 2);
        x += long;
      });
      if (bin.found) {
        context.fillStyle = colours(this.view.isDark).mark;
        context.fillRect(width - 7, place * 2, 6, 2);
      }
    });
    return kept;
  }

  countRows(count) {
    const bins = Array.from({ length: count }, () => ({ total: 0, found: false, kinds: new Map() }));
    const { layout, runs, matches } = this.view;
    layout.panes.forEach((pane, index) => {
      for (let i = 0; i < pane.rows.length; i++) {
        const bin = bins[Math.min(count - 1, Math.floor((pane.at[i] / layout.extent) * count))];
        const kind = runs[index].kind[pane.rows[i]];
        bin.total += 1;
        bin.kinds.set(kind, (bin.kinds.get(kind) || 0) + 1);
        if (matches !== null && matches[runs[index].text[pane.rows[i]]]) bin.found = true;
      }
    });
    return bins;
  }

  paintSight(context, width, height) {
    const view = this.view, scale = height / view.layout.extent, theme = colours(view.isDark);
    const tall = Math.max(4, (view.sightHeight() / view.state.zoom) * scale);
    context.strokeStyle = theme.text;
    context.lineWidth = 1.5;
    context.strokeRect(1, Math.min(view.state.top * scale, height - tall), width - 2, tall);
    view.panes().forEach((pane) => {
      for (const [row, colour] of [[pane.marked, theme.mark], [pane.parted, theme.parted], [pane.chosen, theme.text]]) {
        const place = row === null || row < 0 ? -1 : pane.places[row];
        if (place < 0) continue;
        context.fillStyle = colour;
        context.fillRect(0, pane.at[place] * scale - 1, width, 2.5);
      }
    });
  }
}
