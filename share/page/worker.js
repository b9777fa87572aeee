'use strict';
// Lists a file by the proved module. The page asks by messages, and stays alive meanwhile.

const PAGE_OCTETS = 65536n;
const RECORDING_FORMATS = [1, 2];
const ALL = 0, AT_FAULT = 1, NO_ROOM = 2;
// How many octets the head of a file has, a silent slot, and a burst of an uplink and of a downlink.
const HEAD_OCTETS = 8, SILENCE_OCTETS = 1, BURST_OCTETS = [0, 34, 37];
// Behind so many frames a line shows the same, whatever came before them.
const FRAMES_LOOKED_BACK = 6;
const FRAMES_IN_A_BLOCK = 512;
const NUMBERS = ['length', 'format', 'next', 'fault', 'octet', 'frame', 'slot'];
const ROOM_OCTETS = 65535;
const TEXT_OCTETS = 1 << 22;
const ROWS_SEARCHED_AT_ONCE = 4096;
const SILENCE = '.'.charCodeAt(0), NONE = 0;

let compiled, listed;

/** The memory of one instance of the module, with a place for each thing that its calls take. */
class Memory {
  constructor(exports) {
    this.exports = exports;
    this.told = this.grown(8 * NUMBERS.length);
    this.room = this.grown(ROOM_OCTETS);
    this.text = this.grown(TEXT_OCTETS);
  }

  /** A place of so many octets. */
  grown(octets) {
    const pages = (BigInt(octets) + PAGE_OCTETS - 1n) / PAGE_OCTETS;
    const { memory } = this.exports;
    try {
      return BigInt(memory.grow(pages)) * PAGE_OCTETS;
    } catch (error) {
      if (!(error instanceof TypeError)) throw error;
      // An older form of 64-bit memory counts its pages in plain numbers.
      return BigInt(memory.grow(Number(pages))) * PAGE_OCTETS;
    }
  }

  octets(at, count) {
    return new Uint8Array(this.exports.memory.buffer, Number(at), Number(count));
  }

  /** What a call told: its status, its numbers and its lines. */
  answer(status) {
    const view = new DataView(this.exports.memory.buffer, Number(this.told), 8 * NUMBERS.length);
    const told = Object.fromEntries(NUMBERS.map((name, at) => [name, Number(view.getBigUint64(8 * at, true))]));
    const text = new TextDecoder().decode(this.octets(this.text, told.length));
    return { status, ...told, lines: text.split('\n').slice(0, -1) };
  }
}

/** A file in the memory of the module. */
class ListedFile {
  constructor(name, octets) {
    this.name = name;
    this.memory = new Memory(new WebAssembly.Instance(compiled, {}).exports);
    this.count = octets;
    this.at = this.memory.grown(Math.max(octets, 1));
  }

  static async read(file) {
    const listed = new ListedFile(file.name, file.size);
    const piece = 1 << 22;
    for (let at = 0; at < file.size; at += piece) {
      const octets = new Uint8Array(await file.slice(at, at + piece).arrayBuffer());
      listed.memory.octets(listed.at + BigInt(at), octets.length).set(octets);
    }
    return listed;
  }

  head(isJson) {
    const { exports, text, told } = this.memory;
    return this.memory.answer(exports.page_head(this.at, BigInt(this.count), isJson, text, BigInt(TEXT_OCTETS), told));
  }

  /** The lines of what stands in these octets of the file, whose first frame has this number, from one of them on. */
  window(begin, end, frame, from, isJson) {
    const { exports, room, text, told } = this.memory;
    return this.memory.answer(exports.page_list(this.at + BigInt(begin), BigInt(end - begin), this.format, frame, BigInt(from), isJson,
      room, BigInt(ROOM_OCTETS), text, BigInt(TEXT_OCTETS), told));
  }

  strip() {
    const { exports, text, told } = this.memory;
    const begin = BigInt(HEAD_OCTETS);
    return this.memory.answer(exports.page_strip(this.at + begin, BigInt(this.count) - begin, this.format, 0, 0xffffffff,
      text, BigInt(TEXT_OCTETS), told));
  }

  /** Reads all of it once: what it is, what stands in its slots, and how it ends. */
  open() {
    const head = this.head(0);
    this.format = head.format;
    const shown = { name: this.name, octets: this.count, head: head.lines[0], isRecording: false, rows: 0 };
    if (head.status !== ALL) return { ...shown, last: head.lines[0], isAtFault: true };
    if (!RECORDING_FORMATS.includes(this.format)) return { ...shown, ...this.openList() };
    return { ...shown, ...this.openRecording() };
  }

  openList() {
    // Past all records there is no line but the last.
    const whole = this.window(HEAD_OCTETS, this.count, 0, Number.MAX_SAFE_INTEGER, 0);
    this.rows = whole.next;
    return { rows: whole.next, last: whole.lines[0], isAtFault: whole.status === AT_FAULT };
  }

  openRecording() {
    const strip = this.strip();
    const last = strip.lines.pop();
    this.marks = marks_of(strip.lines);
    this.indexed();
    return { isRecording: true, rows: this.rows, last, isAtFault: strip.status === AT_FAULT, marks: this.marks };
  }

  octetsOf(mark) {
    return mark === NONE ? 0 : mark === SILENCE ? SILENCE_OCTETS : BURST_OCTETS[this.format];
  }

  /** Where each block of frames begins in the file, and how many bursts stand before it. */
  indexed() {
    const slots = this.marks.length, step = 2 * FRAMES_IN_A_BLOCK;
    this.blockOctets = new Float64Array(Math.ceil(slots / step) + 1);
    this.blockRows = new Float64Array(this.blockOctets.length);
    let octet = HEAD_OCTETS, rows = 0;
    for (let slot = 0; slot < slots; slot++) {
      if (slot % step === 0) {
        this.blockOctets[slot / step] = octet;
        this.blockRows[slot / step] = rows;
      }
      octet += this.octetsOf(this.marks[slot]);
      rows += is_burst(this.marks[slot]);
    }
    this.blockOctets[this.blockOctets.length - 1] = octet;
    this.blockRows[this.blockRows.length - 1] = rows;
    this.rows = rows;
  }

  /** Where a frame begins, and how many bursts stand before it. */
  place(frame) {
    const block = Math.floor(frame / FRAMES_IN_A_BLOCK);
    let octet = this.blockOctets[block], row = this.blockRows[block];
    for (let slot = 2 * block * FRAMES_IN_A_BLOCK; slot < 2 * frame; slot++) {
      octet += this.octetsOf(this.marks[slot]);
      row += is_burst(this.marks[slot]);
    }
    return { octet, row };
  }

  /** The slot of a row. */
  slot(row) {
    let low = 0, high = this.blockRows.length - 1;
    while (high - low > 1) {
      const middle = (low + high) >> 1;
      if (this.blockRows[middle] <= row) low = middle;
      else high = middle;
    }
    let slot = 2 * low * FRAMES_IN_A_BLOCK;
    for (let at = this.blockRows[low]; ; slot++) {
      at += is_burst(this.marks[slot]);
      if (at > row) return slot;
    }
  }

  /** The lines of so many rows from one on, as far as there is room for them. */
  lines(row, count, isJson) {
    if (row >= this.rows) return [];
    const wanted = Math.min(count, this.rows - row);
    if (!this.marks) return this.window(HEAD_OCTETS, this.count, 0, row, isJson).lines.slice(0, wanted);
    const first = Math.max(0, (this.slot(row) >> 1) - FRAMES_LOOKED_BACK);
    const behind = (this.slot(row + wanted - 1) >> 1) + 1;
    const begin = this.place(first), end = this.place(behind);
    return this.window(begin.octet, end.octet, first, row - begin.row, isJson).lines.slice(0, wanted);
  }
}

function is_burst(mark) {
  return mark !== NONE && mark !== SILENCE ? 1 : 0;
}

/** The letters of slot 1 and slot 2 of each frame in turn; the lines of a strip have a frame, a slot and the letters of 50 frames. */
function marks_of(lines) {
  const frame_of = line => Number(line.slice(0, line.indexOf(' ', 7)));
  const last = lines.length ? lines[lines.length - 1] : '';
  const frames = lines.reduce((most, line) => Math.max(most, frame_of(line) + letters_of(line).length), 0);
  const marks = new Uint8Array(last ? 2 * frames : 0);
  for (const line of lines) {
    const frame = frame_of(line), letters = letters_of(line);
    const slot = Number(line[line.length - letters.length - 3]);
    for (let at = 0; at < letters.length; at++) marks[2 * (frame + at) + slot - 1] = letters.charCodeAt(at);
  }
  return marks;
}

function letters_of(line) {
  return line.slice(line.lastIndexOf(' ') + 1);
}

/** Whether a number stands among the addresses of what a line of JSON holds. */
function has_address(json, address) {
  return new RegExp(`"(?:source|target|bs)":${address}[,}]`).test(json);
}

/** The rows that a filter lets pass, or null where there is none. Between its pieces it looks whether another is asked for. */
async function filtered({ slot, address }, isStale, tell) {
  const rows = [];
  let row = 0, at = 0;
  const file = listed;
  if (file.marks && address === null) {
    for (; at < file.marks.length; at++) {
      if (!is_burst(file.marks[at])) continue;
      if ((at & 1) + 1 === slot) rows.push(row);
      row++;
    }
    return rows;
  }
  while (row < file.rows) {
    const lines = file.lines(row, ROWS_SEARCHED_AT_ONCE, 1);
    if (!lines.length) break;
    for (const line of lines) {
      if ((slot === null || line.includes(`"slot":${slot},`)) && (address === null || has_address(line, address))) rows.push(row);
      row++;
    }
    tell(row / file.rows);
    await new Promise(next => setTimeout(next));
    if (isStale()) return null;
  }
  return rows;
}

let filters = 0;

const ANSWERS = {
  /** The module, which the page holds. */
  async module({ octets }) {
    if (!WebAssembly.validate(octets)) return { isReady: false };
    compiled = await WebAssembly.compile(octets);
    return { isReady: true };
  },

  async open({ file }) {
    filters++;
    listed = null;
    const read = await ListedFile.read(file);
    const shown = read.open();
    listed = read;
    return shown;
  },

  async lines({ rows }) {
    // Rows that follow one another come from one window.
    const lines = [];
    while (lines.length < rows.length) {
      const first = rows[lines.length];
      let count = 1;
      while (lines.length + count < rows.length && rows[lines.length + count] === first + count) count++;
      const found = listed.lines(first, count, 0);
      if (!found.length) break;
      lines.push(...found);
    }
    return { lines };
  },

  async details({ row }) {
    return { json: listed.lines(row, 1, 1)[0] };
  },

  async filter(asked) {
    const number = ++filters;
    const rows = await filtered(asked, () => number !== filters, part => postMessage({ kind: 'searched', part }));
    return { rows };
  },
};

globalThis.onmessage = async ({ data }) => {
  try {
    postMessage({ id: data.id, ...(await ANSWERS[data.kind](data)) });
  } catch (error) {
    postMessage({ id: data.id, error: String(error) });
  }
};
