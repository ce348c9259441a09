// The page: what is chosen, where the pointer is, and when something is drawn.

const TABLE_ROWS = 25;
const find = id => document.getElementById(id);

class Page {
  constructor(run, histories, replies) {
    this.run = run;
    this.histories = histories;
    this.replies = replies;
    this.range = new ShownRange(Math.max(...histories.map(history => history.count), 1));
    this.channel = 0;
    this.pointed = { channel: 0, at: 0 };
    this.models = new Map();
    this.waiting = false;
    this.stale = true;
    this.makeParts();
    this.tellKeys();
    this.listen();
  }

  makeParts() {
    this.timelines = this.histories.map((history, n) => {
      const canvas = document.createElement("canvas");
      find("timelines").append(canvas);
      this.follow(canvas, n);
      find("channel").append(new Option(`${history.number}: ${history.total} entries`, n));
      return new Picture(canvas, TIMELINE_HEIGHT);
    });
    this.superblocks = new Picture(find("superblocks"), Math.min(256, Math.max(96, 14 * this.run.superblocks)));
    this.charts = new Picture(find("charts"), 150);
    this.follow(this.superblocks.canvas, null);
    this.follow(this.charts.canvas, null);
    this.rows = Array.from({ length: TABLE_ROWS }, () => {
      const row = find("entries").tBodies[0].insertRow();
      for (let n = 0; n < 4; n++) row.insertCell();
      return row;
    });
  }

  listen() {
    find("channel").addEventListener("change", event => this.choose(Number(event.target.value)));
    find("mode").addEventListener("change", () => { this.tellKeys(); this.later(); });
    find("whole").addEventListener("click", () => { this.range.whole(); this.later(); });
    window.addEventListener("resize", () => this.later());
    window.addEventListener("keydown", event => this.key(event));
  }

  tellKeys() {
    find("superblock-keys").replaceChildren(...superblockKeys(find("mode").value));
  }

  key(event) {
    if (event.target.tagName === "SELECT") return;
    const width = this.range.to - this.range.from, middle = this.range.from + width / 2;
    if (event.key === "+") this.range.zoom(middle, 0.5);
    else if (event.key === "-") this.range.zoom(middle, 2);
    else if (event.key === "ArrowLeft") this.range.move(-width / 4);
    else if (event.key === "ArrowRight") this.range.move(width / 4);
    else return;
    this.later();
  }

  // Pointing, dragging and the wheel on a canvas of one channel, or of the chosen one.
  follow(canvas, number) {
    let dragged = null;
    const placeOf = event => {
      const columns = Math.max(1, canvas.clientWidth - LEFT), width = this.range.to - this.range.from;
      return this.range.from + ((event.offsetX - LEFT) / columns) * width;
    };
    canvas.addEventListener("pointerdown", event => { dragged = placeOf(event); canvas.setPointerCapture(event.pointerId); });
    canvas.addEventListener("pointerup", () => { dragged = null; });
    canvas.addEventListener("pointermove", event => {
      if (dragged !== null) {
        this.range.move(dragged - placeOf(event));
        this.later();
      }
      this.point(number === null ? this.channel : number, placeOf(event));
    });
    canvas.addEventListener("click", () => { if (number !== null) this.choose(number); });
    canvas.addEventListener("wheel", event => {
      event.preventDefault();
      this.range.zoom(placeOf(event), event.deltaY > 0 ? 1.25 : 0.8);
      this.later();
    }, { passive: false });
  }

  choose(number) {
    this.channel = number;
    find("channel").value = number;
    this.later();
  }

  point(channel, at) {
    const last = this.histories[channel].count - 1;
    this.pointed = { channel, at: Math.max(0, Math.min(last, Math.floor(at))) };
    this.later(false);
  }

  // Draws at the next frame, all or only what follows the pointer.
  later(all = true) {
    this.stale = this.stale || all;
    if (this.waiting) return;
    this.waiting = true;
    requestAnimationFrame(() => { this.waiting = false; this.draw(); });
  }

  modelOf(number) {
    if (!this.models.has(number)) {
      const history = this.histories[number], start = this.run.channels[number].start;
      this.models.set(number, {
        superblocks: new Superblocks(history, start, this.run.slots, this.run.superblocks),
        counts: new RunningCounts(history),
      });
    }
    return this.models.get(number);
  }

  draw() {
    const begun = performance.now();
    if (this.stale) this.drawAll();
    this.stale = false;
    this.placePointers();
    this.fillTable();
    this.drawTime = performance.now() - begun;
  }

  drawAll() {
    this.histories.forEach((history, n) => drawTimeline(this.timelines[n], history, this.range));
    const model = this.modelOf(this.channel), history = this.histories[this.channel];
    drawSuperblocks(this.superblocks, model.superblocks, history, this.range, find("mode").value);
    drawCharts(this.charts, history, model.counts, this.range, this.run.rungs);
    document.querySelectorAll(".chosen").forEach(place => { place.textContent = history.number; });
  }

  placePointers() {
    const { channel, at } = this.pointed;
    this.timelines.forEach((picture, n) => placePointer(picture, n === channel ? at : null, this.range));
    for (const picture of [this.superblocks, this.charts]) {
      placePointer(picture, channel === this.channel ? at : null, this.range);
    }
  }

  // The rows of the table are always the same; only their texts change.
  fillTable() {
    const { channel, at } = this.pointed, history = this.histories[channel];
    find("pointed").textContent = `Entries of channel ${history.number} around ${at}`;
    const first = Math.max(0, Math.min(at - (TABLE_ROWS >> 1), history.count - TABLE_ROWS));
    this.rows.forEach((row, n) => {
      const place = first + n, there = place < history.count;
      const texts = there ? this.textsOf(history, place) : ["", "", "", ""];
      texts.forEach((text, cell) => { row.cells[cell].textContent = text; row.cells[cell].title = text; });
      const same = there && history.actor[place] === history.actor[at] && history.call[place] === history.call[at];
      row.className = place === at ? "pointed" : same ? "same" : "";
    });
  }

  textsOf(history, place) {
    const line = history.lines[place], space = line.indexOf(" ");
    const replies = this.replies.get(history.actor[place]);
    const reply = replies === undefined ? undefined : replies.lines[history.call[place]];
    return [String(place), line.slice(0, space), line.slice(space + 1), reply === undefined ? "" : reply];
  }
}

function tellRun(run) {
  document.title = `${run.name}: a run of ssd`;
  find("name").textContent = run.name;
  find("counts").textContent = run.told.join(" · ");
  const names = Array.from({ length: run.rungs }, (_, rung) => rung);
  find("rung-keys").append(...keysOf([["so far", SO_FAR_COLOUR], ["lately", LATELY_COLOUR],
    ...names.map(rung => [run.whole_rungs ? rungName(rung, run.rungs) : `rung ${rung}`, rungColour(rung, run.rungs)]),
    ["uncorrectable", rungColour(run.rungs, run.rungs)]]));
}

async function show() {
  const begun = performance.now();
  const run = JSON.parse(find("data").textContent);
  const replies = new Map();
  for (const actor of run.actors) replies.set(actor.number, new Replies(await inflated(actor.text)));
  const histories = [];
  for (const channel of run.channels) {
    histories.push(new ChannelHistory(channel.number, channel.total, await inflated(channel.text)));
  }
  histories.forEach(history => history.noteRungs(replies));
  tellRun(run);
  const page = new Page(run, histories, replies);
  const read = performance.now();
  page.draw();
  window.ssdView = { page, times: { read: read - begun, first: performance.now() - read } };
  document.documentElement.dataset.shown = "yes";
}

show().catch(fault => {
  find("counts").textContent = `The run can't be shown: ${fault}`;
  document.documentElement.dataset.shown = "no";
});
