// How names and numbers are said, as tools/tool.py says them.

/** A letter of a name by its number, as Python writes it. */
function escapeOf(letter) {
  const short = { '\n': '\\n', '\r': '\\r', '\t': '\\t', '\\': '\\\\' }[letter], number = letter.codePointAt(0).toString(16);
  if (short) return short;
  return number.length < 3 ? `\\x${number.padStart(2, '0')}` : number.length < 5 ? `\\u${number.padStart(4, '0')}` : `\\U${number.padStart(8, '0')}`;
}

/** A file's name as it can stand in a line: a letter that would end the line or steer the reader by its number, and no two
 *  blanks in a row, which part the words of a line. */
export function shownName(name) {
  return name.replace(/[\\\p{C}\p{Zl}\p{Zp}]|(?! )\p{Zs}/gu, escapeOf).replaceAll('  ', ' \\x20');
}

/** A count with its noun: '1 cell', '2 cells'. */
export function counted(count, what, ending = 's') {
  return `${count} ${what}${count === 1 ? '' : ending}`;
}
