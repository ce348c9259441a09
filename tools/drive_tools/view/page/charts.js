// The superblocks over a run, and write amplification and rungs over it.

const RUNG_COLOURS = ["#2f9e5b", "#8cc152", "#d5c52d", "#e8a33a", "#e07b39", "#c95b8f", "#8f6fc7"];
const CHART_BIN = 4;
const SO_FAR_COLOUR = "#7b3f98", LATELY_COLOUR = "#c9b3d6";

// The colour of a share of a superblock's slots.
function shareColour(share) {
  return [240 - 200 * share, 244 - 150 * share, 250 - 60 * share];
}

function colourOf(superblocks, changes, n, mode) {
  if (mode === "state") return STATES[changes.state[n]].colour;
  if (changes.state[n] === BAD) return STATES[BAD].colour;
  return shareColour(Math.min(1, changes[mode][n] / Math.max(1, superblocks.slots)));
}

// What the colours of superblocks mean.
function superblockKeys(mode) {
  const keys = mode === "state" ? STATES.map(state => [state.name, state.colour]) :
    [["no slot", shareColour(0)], ["half", shareColour(0.5)], ["all slots", shareColour(1)], ["bad", STATES[BAD].colour]];
  return keysOf(keys.map(([name, colour]) => [name, `rgb(${colour})`]));
}

// One pixel for each column and superblock, up to the end of the history, then stretched to its height.
function superblockImage(superblocks, end, range, columns, mode) {
  const image = new ImageData(columns, superblocks.count);
  const step = (range.to - range.from) / columns;
  for (let sb = 0; sb < superblocks.count; sb++) {
    const changes = superblocks.changes[sb];
    let n = superblocks.changeAt(sb, Math.floor(range.from));
    for (let column = 0, byte = sb * columns * 4; column < columns; column++, byte += 4) {
      if (range.from + column * step > end) break;
      const at = range.from + (column + 1) * step - 1;
      while (n + 1 < changes.at.length && changes.at[n + 1] <= at) n++;
      const colour = colourOf(superblocks, changes, n, mode);
      image.data[byte] = colour[0];
      image.data[byte + 1] = colour[1];
      image.data[byte + 2] = colour[2];
      image.data[byte + 3] = 255;
    }
  }
  return image;
}

function drawSuperblocks(picture, superblocks, history, range, mode) {
  const pen = picture.begin();
  pen.clearRect(0, 0, picture.width, picture.height);
  const image = superblockImage(superblocks, history.count, range, picture.columns, mode);
  const hidden = new OffscreenCanvas(image.width, image.height);
  hidden.getContext("2d").putImageData(image, 0, 0);
  pen.imageSmoothingEnabled = false;
  pen.drawImage(hidden, LEFT, 0, picture.columns, picture.height);
  const height = picture.height / superblocks.count, step = Math.ceil(14 / height);
  for (let sb = 0; sb < superblocks.count; sb += step) picture.label(`sb ${sb}`, Math.max((sb + 0.5) * height, 7));
  drawEnd(picture, history, range);
}

// The reads of each bin by rung; the last count is of those that had no answer.
function rungBins(history, range, bins, rungs) {
  const counts = Array.from({ length: bins }, () => new Uint32Array(rungs + 1));
  const from = Math.max(0, Math.floor(range.from)), to = Math.min(history.count, Math.ceil(range.to));
  const scale = bins / (range.to - range.from);
  for (let at = from; at < to; at++) {
    const rung = history.rung[at];
    if (rung === NO_READ) continue;
    const bin = Math.min(bins - 1, Math.floor((at - range.from) * scale));
    if (bin >= 0) counts[bin][rung === UNCORRECTABLE ? rungs : Math.min(rung, rungs - 1)]++;
  }
  return counts;
}

function rungColour(rung, rungs) {
  return rung === rungs ? "#1c2530" : RUNG_COLOURS[Math.min(rung, RUNG_COLOURS.length - 1)];
}

function drawRungs(picture, history, range, rungs, top, height) {
  const pen = picture.pen, bins = Math.max(1, Math.floor(picture.columns / CHART_BIN));
  rungBins(history, range, bins, rungs).forEach((counts, bin) => {
    const total = counts.reduce((sum, count) => sum + count, 0);
    let y = top + height;
    counts.forEach((count, rung) => {
      if (count === 0) return;
      const part = (count / total) * height;
      y -= part;
      pen.fillStyle = rungColour(rung, rungs);
      pen.fillRect(LEFT + bin * CHART_BIN, y, CHART_BIN, part);
    });
  });
  picture.label("rungs", top + height / 2);
}

// A line of values over the columns of a chart; nothing is drawn where there is no value.
function drawLine(picture, values, top, height, most, colour) {
  const pen = picture.pen;
  pen.strokeStyle = colour;
  pen.beginPath();
  let open = false;
  values.forEach((value, column) => {
    if (value === null) { open = false; return; }
    const y = top + height - ((value - 1) / (most - 1)) * height;
    if (open) pen.lineTo(LEFT + column, y); else pen.moveTo(LEFT + column, y);
    open = true;
  });
  pen.stroke();
}

function drawAmplification(picture, history, counts, range, top, height) {
  const soFar = [], here = [], step = (range.to - range.from) / picture.columns;
  for (let column = 0; column < picture.columns; column++) {
    const to = Math.min(history.count, Math.ceil(range.from + (column + 1) * step));
    const window = Math.ceil(Math.max(step * 24, 64));
    const shown = range.from + column * step < history.count;
    soFar.push(shown ? counts.amplification(0, to) : null);
    here.push(shown ? counts.amplification(Math.max(0, to - window), to) : null);
  }
  const most = Math.max(2, ...soFar.map(value => value ?? 1), ...here.map(value => Math.min(value ?? 1, 8)));
  drawLine(picture, here.map(value => value === null ? null : Math.min(value, most)), top, height, most, LATELY_COLOUR);
  drawLine(picture, soFar, top, height, most, SO_FAR_COLOUR);
  picture.label(most.toFixed(1), top + 6);
  picture.label("amplif.", top + height / 2);
  picture.label("1.0", top + height - 6);
}

function drawCharts(picture, history, counts, range, rungs) {
  const pen = picture.begin(), half = picture.height / 2;
  pen.clearRect(0, 0, picture.width, picture.height);
  drawAmplification(picture, history, counts, range, 4, half - 10);
  drawRungs(picture, history, range, rungs, half + 2, half - 6);
  drawEnd(picture, history, range);
}

function keysOf(parts) {
  return parts.map(([name, colour]) => {
    const key = document.createElement("span"), box = document.createElement("i");
    box.style.background = colour;
    key.append(box, name);
    return key;
  });
}

// The rungs are the read levels, then the soft senses, then the parity of the stripe.
function rungName(rung, rungs) {
  if (rung === rungs - 1) return "stripe parity";
  return rung === rungs - 2 ? "soft senses" : `read level ${rung}`;
}
