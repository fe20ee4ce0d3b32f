"""The users' vectors, tests/data/vectors unless said otherwise: a file has the cases of one call, compressed or not; its README says in what form."""
import gzip
import json
import os
import sys

sys.path.insert(0, os.path.dirname(os.path.abspath(__file__)))
import model  # noqa: E402

ROOT = os.path.dirname(os.path.dirname(os.path.abspath(__file__)))
FOLDER = os.path.join(ROOT, 'tests', 'data', 'vectors')
WORDS_LANDED = 7  # until that request a block was bytes


def words_of(data):
    """The words of bytes. A length that is no tile's stays one."""
    whole = len(data) - len(data) % model.BYTES
    return model.words_of(data[:whole]) + [0] * (whole < len(data))


class Case:
    """A line of a file: what is asked, and the answer, as the calls have them now."""

    def __init__(self, line):
        case = json.loads(line)
        self.given, self.answer = case['args'], case['answer']
        self.bytes = case['landed'] < WORDS_LANDED
        self.no = tuple(self.answer['no']) if 'no' in self.answer else None

    def table(self):
        return model.parse('\n'.join(self.given['table']))[3]

    def words(self, text):
        """Numbers of a block, from digits."""
        return words_of(bytes.fromhex(text)) if self.bytes else [int(text[k:k + 16], 16) for k in range(0, len(text), 16)]

    def settings(self):
        """Settings as they are lent, of an object a tile: what is not named is off."""
        numbers = []
        for tile in self.given['settings']:
            found = [0] * model.SETTINGS
            found[:3] = tile['fields']
            found[3:3 + len(tile['passive'])] = map(int, tile['passive'])
            for g, entry in tile['groups']:
                found[model.FIRST_GROUP + g] = entry
            found[model.FIRST_CELL:] = [number for cell in tile['cells'] for number in cell]
            numbers += found
        return numbers

    def digits(self, name):
        """Bytes of 0 and 1, or above, from a string of a digit each."""
        return [int(digit, 16) for digit in self.given[name]]

    def index(self, number):
        """An index or a length of such numbers."""
        return number // model.BYTES * model.WORDS + (number % model.BYTES > 0) if self.bytes else number

    def block(self, name):
        """((w, h), bits)"""
        block = self.given[name]
        return (block['w'], block['h']), self.words(block['numbers'])

    def rows(self, length):
        """The rows of a list, behind which there are zeros, or the no."""
        if self.no:
            return self.no
        numbers, end = self.answer['list'], length * self.answer['count']
        if any(numbers[end:]):
            raise ValueError('a vector without zeros behind its rows')
        return [tuple(numbers[at:at + length]) for at in range(0, end, length)]


def cases(folder, *names):
    """The cases of these files; of one that is not there it is said."""
    for name in names:
        path = os.path.join(folder, name + '.jsonl')
        if os.path.exists(path):
            with open(path) as file:
                yield from map(Case, file)
        elif os.path.exists(path + '.gz'):
            with gzip.open(path + '.gz', 'rt') as file:
                yield from map(Case, file)
        else:
            print("left out, no file of the users' vectors: %s (--vectors FOLDER)" % os.path.relpath(path, ROOT))
