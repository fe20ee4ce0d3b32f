// The page: takes files that are dropped or chosen, one after the other, and shows what the library answers to each.
import { libraryFrom } from './library.mjs';
import { Chip, numbersOf } from './chip.mjs';
import { Judge, Unreadable, countsOf } from './judge.mjs';
import { faultsOf, lineOf } from './faults.mjs';
import { make, pictureOf } from './picture.mjs';
import { answerTable, heldTable } from './tables.mjs';
import { counted, shownName } from './words.mjs';

const LONGEST = 1 << 24; // bytes of a design; that of a 1k has 140,000
const SIGNS = { yes: 'yes ', no: 'no  ', unknown: '?   ' };
const BESIDES = 'wires between blocks not looked at'; // so that nobody takes a yes for more than it is
const KEY = 'A number in a tile says how many of its cells are in use, a dot that only switches are. A frame of dashes is a block with a no. A thick line or ring is a '
  + 'wire of the fault whose number it bears; letters are the switches that drive it. Point at a tile in use, or go to it by the tab and arrow keys, for what it holds.';

function byId(id) {
  return document.getElementById(id);
}

/** The SHA-256 of bytes, or why there is none. */
async function digestOf(bytes) {
  if (!globalThis.crypto?.subtle) return 'not known: this browser computes it for secure pages and local files only';
  return [...new Uint8Array(await crypto.subtle.digest('SHA-256', bytes))].map((byte) => byte.toString(16).padStart(2, '0')).join('');
}

/** Why a file has no answer. */
function wordsFor(error) {
  if (error instanceof Unreadable) return error.message;
  return error instanceof DOMException ? `it cannot be read: ${error.message}` : `a fault of the page itself: ${error.message}`;
}

class Page {
  /** @param digest the library's SHA-256 */
  constructor(chip, judge, digest) {
    Object.assign(this, { chip, judge, digest, counts: { yes: 0, no: 0, unknown: 0 }, total: 0, done: 0, turn: Promise.resolve() });
  }

  // ---- one file

  async entry(file) {
    const entry = { name: shownName(file.name), answer: 'unknown', faults: [] };
    try {
      if (file.size > LONGEST) throw new Unreadable('too long for an .asc file');
      const text = new Uint8Array(await file.arrayBuffer());
      entry.digest = await digestOf(text);
      entry.verdict = this.judge.judge(text);
      entry.faults = faultsOf(this.judge, entry.verdict);
      entry.answer = entry.verdict.blocks.some(({ ground }) => ground) ? 'no' : 'yes';
      entry.words = this.words(entry);
    } catch (error) {
      Object.assign(entry, { answer: 'unknown', verdict: undefined, words: wordsFor(error) });
    }
    return entry;
  }

  uses(verdict) {
    const { tiles, switches, cells } = countsOf(verdict, this.chip);
    return `${this.chip.device}: ${counted(tiles, 'logic tile')}, ${counted(switches, 'switch', 'es')} in them and ${counted(cells, 'cell')} in use`;
  }

  words({ answer, verdict, faults }) {
    if (answer === 'no') return `${this.chip.device}: ${lineOf(faults[0])}${faults.length > 1 ? ` (and ${faults.length - 1} more, below)` : ''}`;
    return `${this.uses(verdict)}; ${BESIDES}`;
  }

  /** What is said of a file in one line, which ends with the SHA-256 of what was judged, where it could be read, and of what judged it. */
  line({ answer, name, words, digest }) {
    const parts = [name, words, digest && `SHA-256 ${digest}`, `library SHA-256 ${this.digest}`].filter(Boolean);
    return [make('strong', { class: 'answer' }, SIGNS[answer]), ` ${parts.join('  ')}`];
  }

  // ---- how it is shown

  /** What the answer rests on. */
  evidence(digest) {
    const lines = [digest && `File: SHA-256 ${digest}`, `Library: SHA-256 ${this.digest}, as WebAssembly: ${this.chip.build}`, this.chip.table_words];
    return make('p', { class: 'evidence' }, ...lines.filter(Boolean).map((line) => make('span', {}, line)));
  }

  /** The card of a judged design, as tools/card.py has it; of another file what was found. */
  card({ name, answer, verdict, faults, digest }) {
    if (!verdict) return make('section', { class: 'card', 'aria-label': `on ${name}` }, this.evidence(digest));
    const told = make('p', { class: 'told', 'aria-hidden': true });
    const picture = pictureOf(this.chip, verdict, faults, (words) => told.replaceChildren(...words.map((each) => make('span', {}, each))));
    return make('section', { class: 'card', 'aria-label': `the card of ${name}` },
      make('h2', {}, `${name} `, make('strong', {}, answer.toUpperCase())), make('p', {}, `iCE40 ${this.uses(verdict)}`),
      ...(faults.length ? [make('ol', { class: 'faults' }, ...faults.map((fault) => make('li', {}, lineOf(fault))))] : []),
      picture, told, answerTable(verdict), make('p', { class: 'key' }, KEY), heldTable(this.judge, verdict), make('p', { class: 'key' }, this.chip.counts_words),
      make('p', { class: 'missing' }, this.chip.missing), this.evidence(digest));
  }

  /** The line of a file, which opens to its card; that is made when it is opened for the first time. */
  show(entry, open) {
    const item = make('details', { class: `design ${entry.answer}` }, make('summary', {}, ...this.line(entry)));
    item.addEventListener('toggle', () => {
      if (item.open && item.children.length === 1) item.append(this.card(entry));
    });
    item.open = open;
    byId('designs').append(make('li', {}, item));
  }

  /** The line that says how far it is. A screen reader is told when all is done. */
  tell(words, busy = false) {
    byId('progress').setAttribute('aria-busy', busy);
    byId('progress').textContent = words;
  }

  // ---- many files

  take(files) {
    const given = [...files];
    this.total += given.length;
    for (const file of given) this.turn = this.turn.then(() => this.next(file, this.total === 1));
    this.turn = this.turn.then(() => this.tell(`${this.counts.yes} yes, ${this.counts.no} no, ${this.counts.unknown} could not be told`));
  }

  async next(file, open) {
    this.done += 1;
    this.tell(`${this.done} of ${this.total}: ${shownName(file.name)}`, true);
    await new Promise((resolve) => { setTimeout(resolve); }); // so that the line is seen
    const entry = await this.entry(file);
    this.counts[entry.answer] += 1;
    this.show(entry, open);
  }

  listen() {
    const chosen = byId('files'), zone = document.documentElement;
    chosen.addEventListener('change', () => {
      this.take(chosen.files);
      chosen.value = ''; // so that the same file can be chosen again
    });
    for (const event of ['dragover', 'dragenter', 'dragleave', 'drop']) {
      zone.addEventListener(event, (given) => {
        given.preventDefault();
        zone.classList.toggle('over', event === 'dragover' || event === 'dragenter');
        if (event === 'drop') this.take(given.dataTransfer.files);
      });
    }
    chosen.disabled = false;
    this.tell('no design yet');
  }
}

async function start() {
  const chip = new Chip(JSON.parse(byId('facts').textContent)), wasm = numbersOf(byId('wasm').textContent);
  const digest = await digestOf(wasm);
  byId('library').textContent = `This page has the library as WebAssembly, SHA-256 ${digest}: ${chip.build}. ${chip.table_words}`;
  new Page(chip, new Judge(await libraryFrom(wasm), chip), digest).listen();
}

start().catch((error) => { byId('progress').textContent = `this page cannot run here: ${error.message}`; });
