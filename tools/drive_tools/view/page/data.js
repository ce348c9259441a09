// The run as it was printed: the lines of each channel's history and of each actor's replies.

const LANES = [
  { name: "looks", kinds: ["look"], colour: "#3b6fb6" },
  { name: "senses", kinds: ["sense"], colour: "#7aa6d8" },
  { name: "writes", kinds: ["write"], colour: "#2f9e5b" },
  { name: "moves", kinds: ["move"], colour: "#b07cc6" },
  { name: "picks", kinds: ["pick"], colour: "#d98e2b" },
  { name: "erases", kinds: ["erase"], colour: "#8a5a2b" },
  { name: "bad", kinds: ["bad", "fault"], colour: "#cc2f2f" },
  { name: "others", kinds: ["trim", "changed", "condemn", "stay", "age", "refused", "note"], colour: "#7d8794" },
];
// A leave is shown as the end of its look's pin and has no lane.
const NO_LANE = 255;
const LANE_OF = new Map(LANES.flatMap((lane, n) => lane.kinds.map(kind => [kind, n])));
// What a read came to besides its rungs.
const NO_READ = 255;
const UNCORRECTABLE = 254;

async function inflated(base64) {
  if (base64 === "") return "";
  const letters = atob(base64), bytes = new Uint8Array(letters.length);
  for (let n = 0; n < letters.length; n++) bytes[n] = letters.charCodeAt(n);
  const stream = new Blob([bytes]).stream().pipeThrough(new DecompressionStream("deflate"));
  return new Response(stream).text();
}

function linesOf(text) {
  return text === "" ? [] : text.split("\n");
}

// The replies of an actor by the number of its call.
class Replies {
  constructor(text) {
    this.lines = linesOf(text);
    this.rungs = new Uint8Array(this.lines.length).fill(NO_READ);
    this.lines.forEach((line, call) => {
      if (line.startsWith("data ")) this.rungs[call] = Number(line.split(" ", 2)[1]);
      else if (line === "uncorrectable") this.rungs[call] = UNCORRECTABLE;
    });
  }
}

// The history of a channel: for each entry its lane and call, for a look that found a page the end of its pin.
class ChannelHistory {
  constructor(number, total, text) {
    this.number = number;
    this.total = total;
    this.lines = linesOf(text);
    const count = this.lines.length;
    this.count = count;
    this.lane = new Uint8Array(count);
    this.actor = new Uint8Array(count);
    this.call = new Uint32Array(count);
    this.row = new Int32Array(count).fill(-1);
    this.pinEnd = new Int32Array(count).fill(-1);
    this.rung = new Uint8Array(count).fill(NO_READ);
    for (let at = 0; at < count; at++) this.readLine(at, this.lines[at]);
  }

  // Only looks and leaves are read further here; what the others say is read where it is of use.
  readLine(at, line) {
    const dot = line.indexOf("."), space = line.indexOf(" ", dot), after = line.indexOf(" ", space + 1);
    this.actor[at] = Number(line.slice(0, dot));
    this.call[at] = Number(line.slice(dot + 1, space));
    const kind = line.slice(space + 1, after);
    const lane = LANE_OF.get(kind);
    this.lane[at] = lane === undefined ? NO_LANE : lane;
    if (kind === "look") {
      const end = line.indexOf(" ", after + 1);
      this.row[at] = Number(line.slice(after + 1, end));
      // Until its leave is found a pin lasts to the end of what is shown.
      if (line.startsWith("page", end + 1)) this.pinEnd[at] = this.count;
    } else if (kind === "leave") {
      this.pinEnd[Number(line.slice(after + 1))] = at;
    }
  }

  // The rung of a read stands at the leave, or at the last entry of a read that found no page.
  noteRungs(replies) {
    for (let at = 0; at < this.count; at++) {
      const end = this.pinEnd[at];
      if (end < 0 || end >= this.count || this.lane[at] !== 0) continue;
      const of = replies.get(this.actor[at]);
      const rung = of === undefined ? undefined : of.rungs[this.call[at]];
      if (rung !== undefined) this.rung[end] = rung;
    }
  }
}
