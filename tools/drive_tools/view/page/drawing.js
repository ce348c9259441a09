// Drawing on canvases: positions to pixels, and everything in bins of pixels.

// The part of the run that is seen, by positions, the same for all channels.
class ShownRange {
  constructor(most) {
    this.most = Math.max(most, 1);
    this.whole();
  }

  whole() {
    this.from = 0;
    this.to = this.most;
  }

  zoom(at, factor) {
    const width = Math.min(this.most, Math.max(10, (this.to - this.from) * factor));
    const share = (at - this.from) / (this.to - this.from);
    this.place(at - share * width, width);
  }

  move(by) {
    this.place(this.from + by, this.to - this.from);
  }

  place(from, width) {
    this.from = Math.min(Math.max(0, from), this.most - width);
    this.to = this.from + width;
  }
}

const LEFT = 62;

// A canvas with the width of its place on the page, sharp on any screen.
class Picture {
  constructor(canvas, height) {
    this.canvas = canvas;
    this.height = height;
    canvas.style.height = height + "px";
    // The pointer is a line over the canvas, so that it moves without any drawing.
    const frame = document.createElement("div");
    frame.className = "frame";
    canvas.replaceWith(frame);
    this.pointer = document.createElement("div");
    this.pointer.className = "pointer";
    frame.append(canvas, this.pointer);
  }

  begin() {
    const scale = window.devicePixelRatio || 1;
    this.width = this.canvas.clientWidth;
    this.canvas.width = Math.round(this.width * scale);
    this.canvas.height = Math.round(this.height * scale);
    this.pen = this.canvas.getContext("2d");
    this.pen.setTransform(scale, 0, 0, scale, 0, 0);
    this.pen.font = "11px system-ui, sans-serif";
    this.pen.textBaseline = "middle";
    this.columns = Math.max(1, Math.floor(this.width - LEFT));
    return this.pen;
  }

  x(at, range) {
    return LEFT + ((at - range.from) / (range.to - range.from)) * this.columns;
  }

  label(text, y, colour) {
    this.pen.fillStyle = colour || "#5d6a7a";
    this.pen.fillText(text, 4, y);
  }
}

const LANE_HEIGHT = 11;
const PIN_ROWS = 4;
const PIN_HEIGHT = 5;
const TIMELINE_HEIGHT = LANES.length * LANE_HEIGHT + PIN_ROWS * PIN_HEIGHT + 8;

// Counts the entries of each lane in each column of pixels.
function laneBins(history, range, columns) {
  const bins = LANES.map(() => new Uint32Array(columns));
  const from = Math.max(0, Math.floor(range.from)), to = Math.min(history.count, Math.ceil(range.to));
  const scale = columns / (range.to - range.from);
  for (let at = from; at < to; at++) {
    const lane = history.lane[at];
    if (lane === NO_LANE) continue;
    const column = Math.floor((at - range.from) * scale);
    if (column >= 0 && column < columns) bins[lane][column]++;
  }
  return bins;
}

// Marks the columns in which a page is pinned, each open pin in the first row that is free.
function pinBins(history, range, columns) {
  const rows = Array.from({ length: PIN_ROWS }, () => new Uint8Array(columns));
  const free = new Float64Array(PIN_ROWS).fill(-1);
  const scale = columns / (range.to - range.from);
  // A pin that began before what is seen may reach into it.
  const from = Math.max(0, Math.floor(range.from) - 4096), to = Math.min(history.count, Math.ceil(range.to));
  for (let at = from; at < to; at++) {
    const end = history.pinEnd[at];
    if (end < 0 || history.lane[at] !== 0) continue;
    let row = 0;
    while (row < PIN_ROWS - 1 && free[row] >= at) row++;
    free[row] = Math.max(free[row], end);
    if (end < range.from) continue;
    const first = Math.max(0, Math.floor((at - range.from) * scale));
    const last = Math.min(columns - 1, Math.floor((end - range.from) * scale));
    rows[row].fill(1, first, Math.max(first, last) + 1);
  }
  return rows;
}

// Draws runs of columns that have something, with the darkness of how much.
function drawBins(pen, bins, y, height, colour, most, width) {
  pen.fillStyle = colour;
  for (let column = 0; column < bins.length; column++) {
    if (bins[column] === 0) continue;
    pen.globalAlpha = Math.min(1, 0.45 + 0.55 * (bins[column] / most));
    pen.fillRect(LEFT + column, y, width, height);
  }
  pen.globalAlpha = 1;
}

function drawTimeline(picture, history, range) {
  const pen = picture.begin();
  pen.clearRect(0, 0, picture.width, picture.height);
  const perEntry = picture.columns / (range.to - range.from);
  const width = Math.max(1, perEntry * 0.8), most = Math.max(1, 0.5 / perEntry);
  const bins = laneBins(history, range, picture.columns);
  LANES.forEach((lane, n) => {
    const y = 2 + n * LANE_HEIGHT;
    picture.label(lane.name, y + LANE_HEIGHT / 2);
    drawBins(pen, bins[n], y + 1, LANE_HEIGHT - 2, lane.colour, most, width);
  });
  const top = 4 + LANES.length * LANE_HEIGHT;
  picture.label("pins", top + PIN_ROWS * PIN_HEIGHT / 2);
  pinBins(history, range, picture.columns).forEach((row, n) => {
    drawBins(pen, row, top + n * PIN_HEIGHT, PIN_HEIGHT - 1, "#4a5568", 1, 1);
  });
  drawEnd(picture, history, range);
}

// A line where the history ends or what is shown of it ends.
function drawEnd(picture, history, range) {
  const x = picture.x(history.count, range);
  if (x > picture.width) return;
  picture.pen.fillStyle = history.count < history.total ? "#cc2f2f" : "#c2c9d3";
  picture.pen.fillRect(Math.max(x, LEFT), 0, 1, picture.height);
}

function placePointer(picture, at, range) {
  const x = picture.x(at + 0.5, range), seen = at !== null && x >= LEFT && x <= picture.width;
  picture.pointer.style.display = seen ? "block" : "none";
  picture.pointer.style.transform = `translateX(${x}px)`;
}
