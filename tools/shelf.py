#!/usr/bin/env python3
"""Judges the designs of a shelf, each whole: yes, or no with the reason, the place in the chip's names and what leads to it.

    shelf.py FILE.asc ..                IceStorm's .asc files of any iCE40 device, or folders of them
    shelf.py --card PAGE.html FILE.asc  and a page to be pinned up; --cards FOLDER for many designs
    shelf.py --verify PAGE.html FILE.asc    whether that page is this design's, and still true
    shelf.py --json FILE.asc ..         all of it as one JSON document (docs/API.md, 'The shelf as JSON')

The logic tiles of a chip are covered by blocks of up to 8 by 8 tiles, which the proved library judges; it has to be built (`make lib`). Each line
ends with the SHA-256 of the file. The last lines say what was proved and what was looked at besides, with the SHA-256 of the library and of the chip
database.

Exit status: 0 every design is a yes, 1 some design is a no, 2 none is a no but some could not be told, or a page could not be written. With
--verify: 0 the page is true, 1 it is not, 2 it could not be told.
"""
import proved
from evidence import Evidence, today
from lodging import STATUS, Document, Lines, Progress, Shelf, entry_for, listed, status_of
from tool import COULD_NOT, Mistake, parser_for, run, write


def parsed():
    """The command line, and the files that it names with what is wrong with them already."""
    parser = parser_for(__doc__)
    parser.add_argument('designs', nargs='+', metavar='FILE.asc or FOLDER', help='- for standard input')
    parser.add_argument('--json', action='store_true', help='one JSON document in place of lines')
    parser.add_argument('--card', metavar='FILE.html', help='write a page on the one design that is given; - for standard output, in place of lines')
    parser.add_argument('--cards', metavar='FOLDER', help='write a page on each design into this folder')
    parser.add_argument('--package', metavar='NAME', help='name the pins of this package, as tq144, on the pages; a file does not say which it is for')
    parser.add_argument('--verify', metavar='FILE.html', help='say whether this page is the one design\'s, and still true')
    parser.add_argument('--date', action='store_true', help='put the date to the answers and on the pages')
    parser.add_argument('--chipdb', metavar='PATH', help="the folder of IceStorm's chip databases, or one of them; else the 1k is bundled and others are looked for")
    arguments = parser.parse_args()
    if '' in (arguments.card, arguments.cards, arguments.verify, *arguments.designs):
        parser.error('an empty name is not a file')
    files = list(listed(arguments.designs))
    single = arguments.card or arguments.verify
    if single and (arguments.cards or len(files) != 1 or arguments.card and (arguments.verify or arguments.card == '-' and arguments.json)):
        parser.error('--card and --verify go with one design, each by itself; --cards FOLDER is for many')
    if arguments.package is not None and not (arguments.card or arguments.cards):
        parser.error('--package goes with --card or --cards')
    return arguments, files


def page_of(entry, evidence, package):
    """The page of a design for standard output, or why there is none."""
    import card  # takes in what only a page needs
    if entry.mistake:
        raise Mistake(str(entry.mistake))
    return [card.page(entry, evidence, package).rstrip('\n')]


def judge_all(shelf, files, told, cards):
    """Says the answer for each file as it is found. How many there are of each."""
    counts = dict.fromkeys(STATUS, 0)
    told.begin()
    for k, (path, wrong) in enumerate(files, 1):
        shelf.progress.at(k, path)
        entry = entry_for(shelf, path, wrong)
        counts[entry.answer] += 1
        shelf.progress.clear()
        if cards:
            cards.take(entry)
        told.take(entry, shelf.evidence.proved)
    return counts


def cards_for(arguments, files, evidence):
    """The cards that are asked for; where one must not be written that is said before anything is judged."""
    if arguments.cards is None and arguments.card in (None, '-'):
        return None
    import pinned  # takes in what only a page needs
    return pinned.Cards(arguments.card, arguments.cards, [path for path, _ in files], evidence, arguments.package)


def main():
    arguments, files = parsed()
    library = proved.library()
    if not library:
        raise Mistake('the proved library is not there: make lib')
    evidence = Evidence(library.path, today() if arguments.date else None)
    shelf = Shelf(library, evidence, arguments.chipdb, Progress(len(files)))
    if arguments.verify:
        import pinned
        return pinned.verify(shelf, arguments.verify, files[0][0])
    cards = cards_for(arguments, files, evidence)
    if arguments.card == '-':
        entry = entry_for(shelf, *files[0])
        write(page_of(entry, evidence, arguments.package))
        return [], STATUS[entry.answer]
    told = Document() if arguments.json else Lines()
    counts = judge_all(shelf, files, told, cards)
    status = COULD_NOT if cards and cards.failed else status_of(counts)
    told.end(shelf, counts, status)
    return [], status


if __name__ == '__main__':
    run(main)
