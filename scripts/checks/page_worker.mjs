// Lists files by the worker of the page, outside a browser: node page_worker.mjs WORKER MODULE FILES OUTPUT. FILES and OUTPUT are
// files of JSON. The first has the path of each file, or an object of a path and rows. The second gets what the page would show of
// each of them: of a path all of it, and of the others these rows, and the most memory that was taken, in octets.

import fs from 'node:fs';
import vm from 'node:vm';

const [worker, module, files, output] = process.argv.slice(2);
const answers = new Map();
globalThis.postMessage = message => answers.get(message.id)?.(message);
vm.runInThisContext(fs.readFileSync(worker, 'utf8'), { filename: worker });

let last = 0;
function ask(question) {
  return new Promise(done => {
    answers.set(++last, done);
    globalThis.onmessage({ data: { ...question, id: last } });
  });
}

/** A file as a page gets it. */
function opened(path) {
  return Object.assign(new Blob([fs.readFileSync(path)]), { name: path });
}

/** What a call of the module itself gives, which the page asks for in windows. */
const whole = isJson => vm.runInThisContext(`(() => {
  const { head, last } = { head: listed.head(${isJson}).lines, last: [] };
  if (listed.head(0).status !== ALL) return { lines: head, next: 0 };
  const lines = [];
  for (let from = 0; ; ) {
    const part = listed.window(HEAD_OCTETS, listed.count, 0, from, ${isJson});
    lines.push(...part.lines);
    if (part.status !== NO_ROOM) return { ...part, lines: [...head, ...lines] };
    from = part.next;
  }
})()`);

/** All lines of a file in windows of so many rows. */
async function windows(rows, count) {
  const lines = [];
  for (let row = 0; row < rows; row += count) {
    const wanted = Array.from({ length: Math.min(count, rows - row) }, (_, at) => row + at);
    lines.push(...(await ask({ kind: 'lines', rows: wanted })).lines);
  }
  return lines;
}

async function told(path) {
  const shown = await ask({ kind: 'open', file: opened(path) });
  if (shown.error) return shown;
  const strip = vm.runInThisContext('listed.marks ? listed.strip().lines : null');
  const small = shown.rows <= 400;
  return {
    ...shown, marks: undefined, strip, text: whole(0), json: whole(1), lines: await windows(shown.rows, small ? 7 : 1000),
    single: small ? await windows(shown.rows, 1) : null,
    details: shown.rows ? (await ask({ kind: 'details', row: shown.rows - 1 })).json : null,
    ofSlot: (await ask({ kind: 'filter', slot: 2, address: null })).rows,
    ofAddress: (await ask({ kind: 'filter', slot: null, address: 1 })).rows,
  };
}

async function told_in_part({ path, rows }) {
  const shown = await ask({ kind: 'open', file: opened(path) });
  if (shown.error) return shown;
  const { lines } = await ask({ kind: 'lines', rows });
  return { ...shown, marks: undefined, lines, memory: 1024 * process.resourceUsage().maxRSS };
}

const { isReady } = await ask({ kind: 'module', octets: fs.readFileSync(module) });
const shown = isReady ? [] : null;
for (const file of isReady ? JSON.parse(fs.readFileSync(files, 'utf8')) : []) {
  shown.push(await (typeof file === 'string' ? told(file) : told_in_part(file)));
}
fs.writeFileSync(output, JSON.stringify(shown));
