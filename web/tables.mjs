// The blocks of a judged design as tables: the answer for each, and what the library's shelf card has of each. tools/card.py and tools/blockcard.py have
// the same.
import { SEEN, blockName, placeOf } from './chip.mjs';
import { make } from './picture.mjs';
import { counted } from './words.mjs';

const HEADS = ['block', 'cells', 'flip-flops', 'leaving', 'feeding'];

/** The answer for each block, a cell each, as the blocks lie on the chip. */
export function answerTable({ blocks }) {
  const columns = [...new Set(blocks.map(({ cut }) => cut.x))], rows = [...new Set(blocks.map(({ cut }) => cut.y))].reverse();
  const range = (name, first, count) => `${name} ${first} to ${first + count - 1}`;
  const cutAt = (x, y) => blocks.find(({ cut }) => cut.x === x && cut.y === y);
  const cell = ({ cut, ground }) => make('td', { class: ground ? 'no' : 'yes', 'data-block': blockName(cut) }, ground ? `no, ground ${ground}` : 'yes');
  const head = make('tr', {}, make('td'), ...columns.map((x) => make('th', { scope: 'col' }, range('x', x, cutAt(x, rows[0]).cut.w))));
  const body = rows.map((y) => make('tr', {}, make('th', { scope: 'row' }, range('y', y, cutAt(columns[0], y).cut.h)), ...columns.map((x) => cell(cutAt(x, y)))));
  return make('table', {}, make('caption', {}, 'The proved answer for each block'), head, ...body);
}

/** The names of a wire in a line. Names for a wire of the column or the tile beside are left out where it has others. */
function namesLine(names) {
  if (names[0][2].startsWith('glb_netwk')) return names[0][2];
  const own = names.filter(([,, name]) => !SEEN.test(name));
  return (own.length ? own : names).map((name) => placeOf(name, name[2])).join(', ');
}

/** How many wires there are, with the names of each folded behind it. */
function wireList(judge, cut, wires) {
  if (!wires.length) return '0';
  const items = wires.map((wire) => make('li', {}, namesLine(judge.names(cut, wire))));
  return make('details', {}, make('summary', {}, counted(wires.length, 'wire')), make('ul', {}, ...items));
}

function heldCells(judge, { cut, ground }, bits) {
  const whole = (words) => [make('td', { colspan: 4 }, words)];
  if (ground) return whole(`no, ground ${ground}: no card`);
  const { cells, flipFlops, leaving, feeding } = judge.card(cut, bits);
  if (!cells && !leaving.length && !feeding.length) return whole('no cells');
  return [cells, flipFlops, wireList(judge, cut, leaving), wireList(judge, cut, feeding)].map((each) => make('td', {}, each));
}

/** The library's shelf card of each block. */
export function heldTable(judge, { blocks, bits }) {
  const head = make('tr', {}, ...HEADS.map((name) => make('th', { scope: 'col' }, name)));
  const row = (block, k) => make('tr', { 'data-card': blockName(block.cut) }, make('th', { scope: 'row' }, blockName(block.cut)), ...heldCells(judge, block, bits[k]));
  return make('table', { class: 'held' }, make('caption', {}, 'What the proved library finds in each block'), head, ...blocks.map(row));
}
