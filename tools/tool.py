"""How every tool runs: its options, its output, its exit status, its files, and how it says names and numbers.

A tool's `main` gives the lines for standard output and the exit status. Whatever goes wrong is a Mistake: one line on standard error, exit
status 2 and nothing on standard output. explain.py, shelf.py, fights.py and compare.py alone have the status 1, for a
no, for fights and for differences. shelf.py alone prints its lines as they are found (`say`), and these stay.
"""
import argparse
import functools
import io
import os
import re
import signal
import sys
from contextlib import contextmanager

COULD_NOT = 2  # the exit status of a mistake, and argparse's of bad usage
START = 1 << 20  # as much of a file of frames is looked at; the longest whole input has 134,621 bytes


if sys.version_info < (3, 8):
    sys.stderr.write('the tools need Python 3.8 or later\n')
    sys.exit(COULD_NOT)


class Mistake(Exception):
    """Something wrong with what the user gave; the text says what."""


# ---- the version and the options that every tool has

@functools.lru_cache(maxsize=None)
def version():
    """The version that include/ice40.h has, of the repository or of the installation."""
    above = os.path.dirname(os.path.dirname(os.path.realpath(__file__)))
    for folder in (above, os.path.dirname(above)):
        try:
            with open(os.path.join(folder, 'include', 'ice40.h'), encoding='utf-8') as file:
                return re.search(r'#define ICE40_VERSION "([0-9.]+)"', file.read())[1]
        except (OSError, TypeError):
            pass
    return 'unknown'


class Version(argparse.Action):
    """Prints the version, which is looked for only then."""

    def __call__(self, parser, *_):
        write(['%s %s' % (parser.prog, version())])
        parser.exit()


class Parser(argparse.ArgumentParser):
    """A parser whose complaints are one line, whatever the words were that it complains of."""

    def error(self, message):
        super().error(one_line(message))


def parser_for(words, **options):
    """The parser of a tool's command line; `words` is what --help says first."""
    # with no width argparse takes in shutil to ask the terminal, at each run
    formatter = functools.partial(argparse.RawDescriptionHelpFormatter, width=110)
    parser = Parser(description=words, formatter_class=formatter, **options)
    parser.add_argument('--version', action=Version, nargs=0, help='the version, and no more')
    return parser


def run(main):
    if hasattr(signal, 'SIGPIPE'):
        signal.signal(signal.SIGPIPE, signal.SIG_DFL)  # end quietly when the output goes to `head`
    try:
        if sys.stdout is None:
            raise Mistake('standard output is closed')
        lines, status = outcome(main)
        write(lines)
    except Mistake as mistake:
        complain(mistake)
    except OSError as error:  # of other files it is a Mistake already
        complain('standard output: %s' % error.strerror)
    except KeyboardInterrupt:
        complain('interrupted')
    except Exception as error:  # with Python's own status, 1, it would look like a no
        complain('a fault of the tool itself: %r' % error)
    sys.exit(status)


def outcome(main):
    try:
        return main()
    except SystemExit as end:  # argparse: bad usage, or --help
        return [], end.code


def write(lines):
    """Lines to standard output. They end in a line feed alone on every system: the reader refuses other ends. A letter that the output's
    encoding lacks is shown by its number."""
    sys.stdout.reconfigure(newline='\n', errors='backslashreplace')
    sys.stdout.write(''.join(line + '\n' for line in lines))
    sys.stdout.flush()


def say(line):
    """One line to standard output, at once."""
    write([line])


def complain(text):
    """Ends the tool at once, with no second try to write what standard output did not take."""
    try:
        if sys.stderr is not None:
            sys.stderr.write('%s: %s\n' % (shown_name(os.path.basename(sys.argv[0])), one_line(text)))
            sys.stderr.flush()
    finally:
        os._exit(COULD_NOT)


def note(text):
    """A line on standard error beside the output. Where that is closed or full there is none: the output stands without it."""
    try:
        if sys.stderr is not None:
            sys.stderr.write('note: %s\n' % one_line(text))
            sys.stderr.flush()
    except OSError:
        sys.stderr = None


# ---- files: a path, or - for standard input

def shown_letter(letter):
    """A letter of a name, or its number where it would end the line, steer a terminal or cannot be written."""
    if letter.isprintable() and letter != '\\':
        return letter
    if '\udc80' <= letter <= '\udcff':  # a byte that is not UTF-8, as Python keeps it
        return '\\x%02x' % (ord(letter) - 0xDC00)
    return letter.encode('unicode_escape').decode()


def one_line(text):
    """A text that ends no line and steers no terminal. Names in it may be shown already, so that a backslash stays."""
    return ''.join(letter if letter == '\\' else shown_letter(letter) for letter in str(text))


def shown_name(path):
    """A file's name as it can stand in a line. Two blanks part the words of a line, so that a name has no two in a row."""
    return ''.join(map(shown_letter, path)).replace('  ', ' \\x20')


def file_name(path):
    return 'standard input' if path == '-' else shown_name(path)


@contextmanager
def about(path):
    """Says of a mistake that it is in this file."""
    try:
        yield
    except Mistake as mistake:
        raise Mistake('%s: %s' % (file_name(path), mistake)) from None


@contextmanager
def opened(path):
    """A file's bytes."""
    try:
        if path == '-' and sys.stdin is None:
            raise Mistake('it is closed')
        with open(0 if path == '-' else path, 'rb') as file:
            yield file
    except OSError as error:
        raise Mistake(error.strerror) from None


def lines_in(file, size, newline=None):
    """The text of a file of bytes, a line or `size` characters at a time, whichever is less. A byte that is no ASCII shows as such."""
    text = io.TextIOWrapper(file, encoding='ascii', errors='backslashreplace', newline=newline)
    return iter(lambda: text.readline(size), '')


def pieces(path, size, newline=None):
    """A text file, as `lines_in` gives it."""
    with opened(path) as file:
        yield from lines_in(file, size, newline)


def bytes_of(path, limit, what):
    """A whole file's bytes, which is of some kind that is never longer."""
    with opened(path) as file:
        data = file.read(limit + 1)
    if len(data) > limit:
        raise Mistake('too long for %s' % what)
    return data


def start_of(path):
    """A file as it stands, or its first million bytes: only a line feed ends a line."""
    text = ''
    with about(path):
        for piece in pieces(path, START, newline='\n'):
            text += piece
            if len(text) >= START:
                break
    return text[:START]


def text_of(path, what):
    """A whole file as it stands, which is of some kind that is never longer than a million bytes."""
    text = start_of(path)
    if len(text) == START:
        raise Mistake('%s: too long for %s' % (file_name(path), what))
    return text


# ---- words

def number(text):
    """A number as users write it: decimal, or hexadecimal after 0x."""
    if not re.fullmatch('-?(0|[1-9][0-9]{0,18}|0[xX][0-9a-fA-F]{1,16})', text):
        raise Mistake('%s is no number: write it in decimal, or in hexadecimal after 0x' % ascii(text))
    return int(text, 0)


def add_east(parser, words):
    """The option for the column to the east of a block; None where it is not given."""
    parser.add_argument('--east', type=int, choices=(0, 1), help=words)


def counted(count, what, ending='s'):
    """A count with its noun: '1 cell', '2 cells'."""
    return '%d %s%s' % (count, what, '' if count == 1 else ending)
