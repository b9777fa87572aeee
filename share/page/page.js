'use strict';
// What is seen of a file. The worker reads it, by the proved module; here it is drawn.

const ROW_HEIGHT = 20;
// A browser can't scroll over more. Longer listings are scrolled in larger steps.
const MOST_HEIGHT = 8000000;
const ROWS_AROUND = 60;
const MOST_LINES_KEPT = 20000;
const LETTER_WIDTH = 16, LETTER_HEIGHT = 22;
const SECONDS_IN_A_FRAME = 0.06;

// What stands in a slot, the most telling kind last: where many frames share a column, it is the one that is seen.
const KINDS = [
  { name: 'silence', letters: '.', colour: '' },
  { name: 'idle', letters: 'i', colour: '#8a94a6' },
  { name: 'voice, by its place', letters: 'ABCDEFv', colour: '#2f6fb2' },
  { name: 'data header, block', letters: 'Db', colour: '#2e8b57' },
  { name: 'control block, multi block', letters: 'cm', colour: '#b86e00' },
  { name: 'voice header, terminator, PI header', letters: 'HTP', colour: '#173f6b' },
  { name: 'unreadable', letters: '?', colour: '#b3261e' },
];
const KIND_OF_MARK = new Uint8Array(256);
KINDS.forEach((kind, at) => [...kind.letters].forEach(letter => { KIND_OF_MARK[letter.charCodeAt(0)] = at; }));
const SILENCE = '.'.charCodeAt(0);

const part = id => document.getElementById(id);
const about = part('about'), listing = part('listing'), rowsPart = part('rows'), details = part('details');

/** The worker, asked by messages that it answers. */
const worker = (() => {
  const source = new Blob([part('worker').textContent], { type: 'text/javascript' });
  const it = new Worker(URL.createObjectURL(source));
  const waiting = new Map();
  let last = 0;
  it.onmessage = ({ data }) => {
    if (data.kind === 'searched') return tellSearched(data.part);
    const { done, failed } = waiting.get(data.id);
    waiting.delete(data.id);
    if (data.error) failed(new Error(data.error));
    else done(data);
  };
  return {
    ask: question => new Promise((done, failed) => {
      waiting.set(++last, { done, failed });
      it.postMessage({ ...question, id: last });
    }),
  };
})();

// The file that is shown; the rows that pass the filter, or null for all; the first row that is seen, and the one that is chosen.
let file = null, passing = null, firstSeen = 0, chosen = -1;
// The lines that were read, by their rows, and whether more are asked for.
let lines = new Map(), isAsking = false;
let overview = null;

const rowCount = () => (passing ? passing.length : file ? file.rows : 0);
const rowAt = index => (passing ? passing[index] : index);
const seenRows = () => Math.max(1, Math.floor(listing.clientHeight / ROW_HEIGHT));

/** The first place of a row, or of one behind it, among those that pass. */
function indexOf(row) {
  if (!passing) return row;
  let low = 0, high = passing.length;
  while (low < high) {
    const middle = (low + high) >> 1;
    if (passing[middle] < row) low = middle + 1;
    else high = middle;
  }
  return low;
}

const isBurst = slot => file.marks[slot] !== SILENCE && file.marks[slot] !== 0;

/** How many bursts stand before a slot. */
function rowOfSlot(slot) {
  let row = 0;
  for (let at = 0; at < slot; at++) row += isBurst(at) ? 1 : 0;
  return row;
}

// The lists.

function layOut() {
  part('height').style.height = `${Math.max(listing.clientHeight, Math.min(rowCount() * ROW_HEIGHT, MOST_HEIGHT))}px`;
  rowsPart.style.height = `${listing.clientHeight}px`;
}

function goTo(index) {
  const most = Math.max(0, rowCount() - seenRows());
  firstSeen = Math.max(0, Math.min(index, most));
  const way = part('height').offsetHeight - listing.clientHeight;
  listing.scrollTop = most ? (firstSeen / most) * way : 0;
  show();
}

function scrolled() {
  const way = part('height').offsetHeight - listing.clientHeight;
  const most = Math.max(0, rowCount() - seenRows());
  const index = way > 0 ? Math.round((listing.scrollTop / way) * most) : 0;
  // A step of a key that is finer than the bar can show stays.
  if (Math.abs(index - firstSeen) > Math.max(0, most / Math.max(way, 1))) {
    firstSeen = index;
    show();
  }
}

function show() {
  const count = Math.min(seenRows(), rowCount() - firstSeen);
  const shown = [];
  for (let at = 0; at < count; at++) {
    const index = firstSeen + at, line = document.createElement('div');
    line.textContent = lines.get(rowAt(index)) ?? '…';
    line.setAttribute('role', 'option');
    line.dataset.index = index;
    if (index === chosen) {
      line.className = 'chosen';
      line.setAttribute('aria-selected', 'true');
    }
    shown.push(line);
  }
  rowsPart.replaceChildren(...shown);
  drawPictures();
  askForLines();
}

async function askForLines() {
  if (isAsking || !file) return;
  const begin = Math.max(0, firstSeen - ROWS_AROUND), end = Math.min(rowCount(), firstSeen + seenRows() + ROWS_AROUND);
  const isMissing = index => !lines.has(rowAt(index));
  const isSeen = index => index >= firstSeen && index < firstSeen + seenRows();
  let wanted = Array.from({ length: end - begin }, (_, at) => begin + at).filter(isMissing);
  if (!wanted.some(isSeen)) return;
  wanted = wanted.map(rowAt);
  isAsking = true;
  const asked = file;
  try {
    const answer = await worker.ask({ kind: 'lines', rows: wanted });
    if (asked === file) {
      if (lines.size > MOST_LINES_KEPT) lines = new Map();
      answer.lines.forEach((line, at) => lines.set(wanted[at], line));
      isAsking = false;
      if (answer.lines.length) show();
    }
  } finally {
    isAsking = false;
  }
}

// The pictures.

/** A pen for a canvas, in the pixels of the page. */
function penOf(canvas) {
  const scale = devicePixelRatio, { width, height } = canvas.getBoundingClientRect();
  canvas.width = Math.round(width * scale);
  canvas.height = Math.round(height * scale);
  const pen = canvas.getContext('2d');
  pen.scale(scale, scale);
  return { pen, width, height };
}

const ink = () => getComputedStyle(document.body).color;

/** The kinds of all frames, column by column: the most telling one of each. */
function overviewOf(width) {
  const columns = Math.max(1, Math.floor(width)), frames = file.marks.length / 2;
  const kinds = new Uint8Array(2 * columns);
  for (let slot = 0; slot < file.marks.length; slot++) {
    const frame = slot >> 1;
    const first = Math.floor((frame / frames) * columns), last = Math.max(first, Math.ceil(((frame + 1) / frames) * columns) - 1);
    for (let at = first; at <= last; at++) {
      const cell = 2 * at + (slot & 1);
      kinds[cell] = Math.max(kinds[cell], KIND_OF_MARK[file.marks[slot]]);
    }
  }
  return kinds;
}

/** The frame of the first row that is seen. */
function firstFrame() {
  const found = /^\s*[\d.]+\s+(\d+) [12]/.exec(lines.get(rowAt(firstSeen)) ?? '');
  return found ? Number(found[1]) : file.firstFrame;
}

function drawOverview(first, count) {
  const { pen, width, height } = penOf(part('overview'));
  const frames = Math.max(1, file.marks.length / 2), half = height / 2;
  if (!overview || overview.length !== 2 * Math.max(1, Math.floor(width))) overview = overviewOf(width);
  overview.forEach((kind, cell) => {
    if (!KINDS[kind].colour) return;
    pen.fillStyle = KINDS[kind].colour;
    pen.fillRect(cell >> 1, (cell & 1) * half + 3, 1, half - 6);
  });
  pen.strokeStyle = ink();
  pen.lineWidth = 1.5;
  pen.strokeRect((first / frames) * width, 1, Math.max(3, (Math.min(count, frames - first) / frames) * width), height - 2);
}

function drawStrip(first, count) {
  const { pen } = penOf(part('strip'));
  pen.textAlign = 'center';
  pen.textBaseline = 'middle';
  for (let at = 0; at < count; at++) {
    const frame = first + at;
    if (2 * frame >= file.marks.length) break;
    for (const slot of [0, 1]) drawLetter(pen, at, slot, file.marks[2 * frame + slot]);
    if (frame % 10 === 0) {
      pen.fillStyle = ink();
      pen.font = '11px system-ui, sans-serif';
      pen.textAlign = 'left';
      pen.fillText(`${(frame * SECONDS_IN_A_FRAME).toFixed(2)} s`, at * LETTER_WIDTH + 2, 2 * LETTER_HEIGHT + 16);
      pen.fillRect(at * LETTER_WIDTH, 2 * LETTER_HEIGHT + 4, 1, 6);
      pen.textAlign = 'center';
    }
  }
}

function drawLetter(pen, at, slot, mark) {
  const kind = KINDS[KIND_OF_MARK[mark]], y = slot * LETTER_HEIGHT + 2;
  if (mark === 0) return;
  if (kind.colour) {
    pen.fillStyle = kind.colour;
    pen.fillRect(at * LETTER_WIDTH, y, LETTER_WIDTH - 1, LETTER_HEIGHT - 2);
  }
  pen.font = '12px ui-monospace, monospace';
  pen.fillStyle = kind.colour ? '#fff' : ink();
  pen.fillText(String.fromCharCode(mark), at * LETTER_WIDTH + LETTER_WIDTH / 2, y + LETTER_HEIGHT / 2);
}

function drawPictures() {
  if (!file?.isRecording) return;
  const count = Math.max(1, Math.floor(part('strip').getBoundingClientRect().width / LETTER_WIDTH));
  file.firstFrame = firstFrame();
  drawOverview(file.firstFrame, count);
  drawStrip(file.firstFrame, count);
}

function drawKey() {
  part('key').replaceChildren(...KINDS.filter(kind => kind.colour).map(kind => {
    const entry = document.createElement('span'), letters = document.createElement('i');
    letters.textContent = kind.letters;
    letters.style.background = kind.colour;
    entry.append(letters, kind.name);
    return entry;
  }));
}

// The details of one line.

/** The keys of an object with their values; those of objects inside stand behind the key of these. */
function fieldsOf(object, before = '') {
  return Object.entries(object).flatMap(([key, value]) =>
    value && typeof value === 'object' && !Array.isArray(value) ? fieldsOf(value, `${before}${key}.`) : [[before + key, value]]);
}

async function choose(index) {
  if (index < 0 || index >= rowCount()) return;
  chosen = index;
  if (index < firstSeen || index >= firstSeen + seenRows()) goTo(index < firstSeen ? index : index - seenRows() + 1);
  else show();
  const row = rowAt(index), { json } = await worker.ask({ kind: 'details', row });
  if (chosen !== index || rowAt(index) !== row || json === undefined) return;
  const fields = JSON.parse(json), table = document.createElement('table'), title = document.createElement('h2');
  title.textContent = fields.name ?? fields.kind ?? 'record';
  for (const [key, value] of fieldsOf(fields)) {
    const line = table.insertRow(), head = document.createElement('th');
    head.textContent = key.replaceAll('_', ' ');
    line.append(head);
    line.insertCell().textContent = typeof value === 'string' ? value : JSON.stringify(value);
  }
  details.replaceChildren(title, table);
  document.body.dataset.details = json;
}

// A file, and its filter.

function reset() {
  passing = null;
  firstSeen = 0;
  chosen = -1;
  lines = new Map();
  overview = null;
  part('filter').reset();
  part('matches').textContent = '';
  details.replaceChildren(hint('Click a line for its details.'));
}

function hint(text) {
  const it = document.createElement('p');
  it.className = 'hint';
  it.textContent = text;
  return it;
}

function tellSearched(portion) {
  part('matches').textContent = `searching, ${Math.floor(100 * portion)} %`;
}

const counted = (count, what) => `${count.toLocaleString('en')} ${what}${count === 1 ? '' : 's'}`;

async function open(chosenFile) {
  if (!chosenFile || document.body.dataset.state === 'unable') return;
  document.body.dataset.state = 'reading';
  about.textContent = `reading ${chosenFile.name} …`;
  about.className = '';
  file = null;
  const begun = performance.now();
  try {
    const read = await worker.ask({ kind: 'open', file: chosenFile });
    reset();
    file = { ...read, firstFrame: 0 };
  } catch (error) {
    about.textContent = `${chosenFile.name} can't be read: ${error.message}`;
    about.className = 'fault';
    document.body.dataset.state = 'failed';
    return;
  }
  const seconds = ((performance.now() - begun) / 1000).toFixed(1);
  part('shown').hidden = false;
  part('pictures').hidden = !file.isRecording;
  const what = file.rows || !file.isAtFault ? `${file.head ?? ''}, ${counted(file.rows, file.isRecording ? 'burst' : 'record')}` : 'not listed';
  about.textContent = `${file.name}: ${what}, read in ${seconds} s`;
  part('last').textContent = file.isAtFault ? `At fault: ${file.last}` : file.last;
  part('last').className = file.isAtFault ? 'text fault' : 'text';
  layOut();
  goTo(0);
  document.body.dataset.state = 'shown';
}

async function filter() {
  const slot = part('slot').value ? Number(part('slot').value) : null;
  const typed = part('address').value.trim();
  const address = /^\d+$/.test(typed) ? Number(typed) : null;
  part('address').setCustomValidity(typed && address === null ? 'An address is a number.' : '');
  part('address').reportValidity();
  if (!file || (typed && address === null)) return;
  const asked = file;
  let rows = null;
  if (slot !== null || address !== null) {
    ({ rows } = await worker.ask({ kind: 'filter', slot, address }));
    if (!rows || asked !== file) return;
  }
  passing = rows;
  chosen = -1;
  part('matches').textContent = rows ? `${counted(rows.length, 'line')} of ${file.rows.toLocaleString('en')}` : '';
  layOut();
  goTo(0);
}

// What is done with the mouse and the keys.

function frameUnder(event, frames) {
  return Math.min(frames - 1, Math.max(0, Math.floor((event.offsetX / event.target.clientWidth) * frames)));
}

part('overview').addEventListener('click', event => {
  const frames = file.marks.length / 2;
  if (frames) goTo(indexOf(rowOfSlot(2 * frameUnder(event, frames))));
});

part('strip').addEventListener('click', event => {
  const slot = 2 * (file.firstFrame + Math.floor(event.offsetX / LETTER_WIDTH)) + (event.offsetY > LETTER_HEIGHT + 1 ? 1 : 0);
  if (slot >= file.marks.length || !isBurst(slot)) return;
  const row = rowOfSlot(slot), index = indexOf(row);
  if (index < rowCount() && rowAt(index) === row) choose(index);
});

listing.addEventListener('scroll', scrolled);
listing.addEventListener('click', event => {
  const line = event.target.closest('[data-index]');
  if (line) choose(Number(line.dataset.index));
});

const STEPS = {
  ArrowUp: () => chosen - 1,
  ArrowDown: () => chosen + 1,
  PageUp: () => Math.max(0, chosen - seenRows()),
  PageDown: () => Math.min(rowCount() - 1, chosen + seenRows()),
  Home: () => 0,
  End: () => rowCount() - 1,
  Enter: () => (chosen < 0 ? firstSeen : chosen),
};

listing.addEventListener('keydown', event => {
  if (!STEPS[event.key] || event.ctrlKey || event.metaKey || event.altKey) return;
  event.preventDefault();
  choose(STEPS[event.key]());
});

addEventListener('keydown', event => {
  const isTyping = event.target.matches('input, select');
  if (event.key === '/' && !isTyping && file) {
    event.preventDefault();
    part('address').focus();
  }
  if (event.key === 'Escape' && isTyping) listing.focus();
});

let typing = 0;
part('filter').addEventListener('input', () => {
  clearTimeout(typing);
  typing = setTimeout(filter, 250);
});
part('filter').addEventListener('submit', event => {
  event.preventDefault();
  clearTimeout(typing);
  filter();
  listing.focus();
});

part('file').addEventListener('change', event => open(event.target.files[0]));
addEventListener('dragover', event => {
  event.preventDefault();
  document.body.classList.add('over');
});
addEventListener('dragleave', () => document.body.classList.remove('over'));
addEventListener('drop', event => {
  event.preventDefault();
  document.body.classList.remove('over');
  open(event.dataTransfer.files[0]);
});
addEventListener('resize', () => {
  if (!file) return;
  layOut();
  goTo(firstSeen);
});

async function begin() {
  drawKey();
  const octets = Uint8Array.from(atob(part('module').textContent), letter => letter.charCodeAt(0));
  const { isReady } = await worker.ask({ kind: 'module', octets });
  document.body.dataset.state = isReady ? 'ready' : 'unable';
  if (isReady) return;
  part('file').disabled = true;
  about.className = 'fault';
  about.textContent = "This browser can't show files here: it has no 64-bit memory for WebAssembly (Memory64), which this page needs. "
    + 'Recent versions of Chromium and of Firefox have it.';
}

begin();
