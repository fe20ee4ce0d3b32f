#!/usr/bin/env python3
"""A manual page of a tool, from what its --help says, on standard output.

    man.py tools/shelf.py ice40-shelf 0.5.0
"""
import os
import subprocess
import sys


def escaped(line):
    """A line as roff prints it: no escapes, and no request where it begins with a dot or an apostrophe."""
    line = line.replace('\\', '\\e').replace('-', '\\-')
    return '\\&' + line if line.startswith(('.', "'")) else line


def main(tool, name, version):
    done = subprocess.run([sys.executable, tool, '--help'], stdout=subprocess.PIPE, check=True, universal_newlines=True, env=dict(os.environ, COLUMNS='78'))
    usage, _, rest = done.stdout.replace(os.path.basename(tool), name).partition('\n\n')
    about = rest.partition('\n')[0].rstrip('.')
    lines = ['.TH %s 1 "" "ice40 %s"' % (name.upper(), version), '.SH NAME', '%s \\- %s' % (escaped(name), escaped(about)), '.SH SYNOPSIS', '.nf',
             *map(escaped, usage.replace('usage: ', '', 1).splitlines()), '.fi', '.SH DESCRIPTION', '.nf', *map(escaped, rest.splitlines()), '.fi']
    print('\n'.join(lines))


if __name__ == '__main__':
    main(*sys.argv[1:])
