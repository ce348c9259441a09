// What the entries of a history do to superblocks, and counts that run along a history.

const STATES = [
  { name: "free", colour: [232, 236, 241] },
  { name: "frontier", colour: [47, 158, 91] },
  { name: "sealed", colour: [91, 141, 201] },
  { name: "bad", colour: [204, 47, 47] },
  { name: "victim", colour: [217, 142, 43] },
];
const FREE = 0, FRONTIER = 1, SEALED = 2, BAD = 3, VICTIM = 4;

// State, used and live of each superblock, and each change of them with its position.
class Superblocks {
  constructor(history, start, slots, count) {
    this.slots = slots;
    this.count = count;
    this.state = Uint8Array.from({ length: count }, (_, sb) => start.state[sb] ?? FREE);
    this.used = Uint32Array.from({ length: count }, (_, sb) => start.used[sb] ?? 0);
    this.live = new Uint32Array(count);
    this.places = new Map(start.rows);
    for (const sb of this.places.values()) this.live[sb]++;
    this.changes = Array.from({ length: count }, () => ({ at: [], state: [], used: [], live: [] }));
    for (let sb = 0; sb < count; sb++) this.note(-1, sb);
    for (let at = 0; at < history.count; at++) {
      // Looks, senses and leaves change no superblock.
      if (history.lane[at] > 1 && history.lane[at] !== NO_LANE) this.take(history, at, history.lines[at].split(" "));
    }
  }

  note(at, sb) {
    const changes = this.changes[sb];
    const last = changes.at.length - 1;
    if (last >= 0 && changes.at[last] === at) {
      changes.state[last] = this.state[sb];
      changes.used[last] = this.used[sb];
      changes.live[last] = this.live[sb];
      return;
    }
    changes.at.push(at);
    changes.state.push(this.state[sb]);
    changes.used.push(this.used[sb]);
    changes.live.push(this.live[sb]);
  }

  leave(at, row) {
    const old = this.places.get(row);
    if (old === undefined) return;
    this.live[old]--;
    this.places.delete(row);
    this.note(at, old);
  }

  program(at, row, slot) {
    const [sb, index] = slot.split(".").map(Number);
    this.leave(at, row);
    this.places.set(row, sb);
    this.live[sb]++;
    this.used[sb] = index + 1;
    this.state[sb] = this.used[sb] === this.slots ? SEALED : FRONTIER;
    this.note(at, sb);
  }

  turn(at, sb, state, used) {
    this.state[sb] = state;
    if (used !== undefined) this.used[sb] = used;
    this.note(at, sb);
  }

  take(history, at, words) {
    switch (words[1]) {
      case "write": return this.program(at, Number(words[2]), words[3]);
      case "move": return this.program(at, history.row[Number(words[2])], words[3]);
      case "trim": return this.leave(at, Number(words[2]));
      case "condemn": return this.leave(at, history.row[Number(words[2])]);
      case "pick": return this.turn(at, Number(words[2]), VICTIM);
      case "erase": return this.turn(at, Number(words[2]), FREE, 0);
      case "bad": {
        if (words[2] === "erase") return this.turn(at, Number(words[3]), BAD, 0);
        const [sb, index] = words[4].split(".").map(Number);
        return this.turn(at, sb, BAD, index);
      }
    }
  }

  // The number of the last change of a superblock at or before a position.
  changeAt(sb, at) {
    const places = this.changes[sb].at;
    let low = 0, high = places.length - 1;
    while (low < high) {
      const middle = (low + high + 1) >> 1;
      if (places[middle] <= at) low = middle; else high = middle - 1;
    }
    return low;
  }
}

// How many writes and moves stand before each position.
class RunningCounts {
  constructor(history) {
    this.writes = new Uint32Array(history.count + 1);
    this.moves = new Uint32Array(history.count + 1);
    for (let at = 0; at < history.count; at++) {
      this.writes[at + 1] = this.writes[at] + (history.lane[at] === 2);
      this.moves[at + 1] = this.moves[at] + (history.lane[at] === 3);
    }
  }

  amplification(from, to) {
    const writes = this.writes[to] - this.writes[from];
    return writes === 0 ? null : (writes + this.moves[to] - this.moves[from]) / writes;
  }
}
