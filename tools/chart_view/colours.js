// Colours, light and dark, of the palette of Okabe and Ito, which colour-blind people tell apart. A kind has its dashes
// and its label too, so no kind is told by its colour alone.

const KINDS = {
  tick: ["#8a8a8a", "#8f8f8f", []],
  command: ["#111111", "#f5f5f5", []],
  down: ["#b34700", "#ff8c42", []],
  up: ["#00734f", "#2fc79a", []],
  hello: ["#2f8fc9", "#62bdf0", [2, 3]],
  update: ["#c75300", "#f08a3c", []],
  acknowledgement: ["#008a63", "#35c79c", [7, 3]],
  request: ["#b3598c", "#e08fbd", [2, 3]],
  response: ["#b87a00", "#efb02e", []],
  flooded: ["#0067a3", "#4aa8e0", []],
  malformed: ["#111111", "#f5f5f5", [9, 3, 2, 3]],
};

const LIGHT = {
  ground: "#ffffff", text: "#1b1b1b", faint: "#6b6b6b", line: "#d9d9d9", moment: "#ececec", head: "#f6f6f6",
  chosen: "#dcebf7", mark: "#d9a800", parted: "#b3598c", markBand: "#f9e79f", partedBand: "#eecbde",
  found: "#fff7d6", lost: "#9a9a9a",
};
const DARK = {
  ground: "#15181c", text: "#e8e8e8", faint: "#9da3aa", line: "#3a4048", moment: "#262b31", head: "#1d2126",
  chosen: "#243a4f", mark: "#d1a800", parted: "#e08fbd", markBand: "#6b5600", partedBand: "#6b3456",
  found: "#3d3818", lost: "#777d85",
};

export function colours(isDark) {
  return isDark ? DARK : LIGHT;
}

export function kindColour(kind, isDark) {
  return (KINDS[kind] || KINDS.malformed)[isDark ? 1 : 0];
}

export function kindDashes(kind) {
  return (KINDS[kind] || KINDS.malformed)[2];
}
