"""tools/shelf.py as its tests run it, and the designs that they try it on."""
import json
import os
import re
import subprocess
import sys

sys.path.insert(0, os.path.dirname(os.path.abspath(__file__)))
import model  # noqa: E402
import shelf_model  # noqa: E402
from tools import DEBIAN, TOOLS, contents, data  # noqa: E402

import proved  # noqa: E402

GOOD = [data('counter8.asc'), data('uart_tx.asc')]


class Shelf:
    """The tool, with a library and a cache folder of its own."""

    def __init__(self, library, folder):
        self.library, self.folder = library, folder

    def environment(self, **changes):
        """Python may keep the compiled form of the tools, as it does for their users, but not beside them."""
        own = {proved.VARIABLE: self.library, 'XDG_CACHE_HOME': os.path.join(self.folder, 'cache'), 'PYTHONPYCACHEPREFIX': os.path.join(self.folder, 'compiled')}
        return {name: value for name, value in dict(os.environ, **{**own, **changes}).items() if name != 'PYTHONDONTWRITEBYTECODE'}

    def run(self, *arguments, **changes):
        """Exit status, output and errors."""
        command = [sys.executable, os.path.join(TOOLS, 'shelf.py')] + [str(argument) for argument in arguments]
        done = subprocess.run(command, stdout=subprocess.PIPE, stderr=subprocess.PIPE, env=self.environment(**changes),
                              encoding=changes.get('PYTHONIOENCODING', 'utf-8'))
        return done.returncode, done.stdout, done.stderr

    def told(self, *arguments):
        """The JSON document."""
        return json.loads(self.run('--json', *arguments)[1])

    def write(self, name, text):
        path = os.path.join(self.folder, name)
        os.makedirs(os.path.dirname(path), exist_ok=True)
        with open(path, 'w', encoding='latin-1', newline='') as file:
            file.write(text)
        return path


def database(device):
    return os.path.join(DEBIAN, 'chipdb-%s.txt' % device)


def undecodable():
    """A design with a bit that nothing claims, B0[50] of tile (5,6)."""
    text = contents(data('uart_tx.asc'))
    return shelf_model.with_switch(text, shelf_model.tiles_of(text), (5, 6), [(0, 50)], '1')


def emptied(text):
    """A design's text without a bit in its logic tiles."""
    return re.sub(r'(?<=^)(\.logic_tile \d+ \d+\n)((?:[01]+\n){16})', lambda match: match[1] + match[2].replace('1', '0'), text, flags=re.MULTILINE)


def single_cell():
    """A design that has one cell, the lookup of cell 0 of tile (5,6), and no switch in its logic tiles."""
    text = emptied(contents(data('counter8.asc')))
    return shelf_model.with_switch(text, shelf_model.tiles_of(text), (5, 6), [divmod(model.lc(0, 0), model.COLUMNS)], '1')
