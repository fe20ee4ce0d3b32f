#!/usr/bin/env python3
"""What has to be believed for each demand, computed from the sources, against docs/BELIEVE.md.

    believe.py             prints the counts; status 1 where the page, a contents page or the table below is not true any more
    believe.py --page      writes the lists of docs/BELIEVE.md anew, between their markers
    believe.py --why NAME  prints by which way a definition is reached

A demand's roots are the definitions of crates/theorem/specs/DemandN.antt; where that file does not exist they are what the contracts of
the entry points say. From the roots every definition that a definition names is followed through the `use` lines of `specs/`. It stops at
a definition that is computed, where a law says that it is what another definition means: the law and the other definition stand in its
place (COMPUTED). A law or a definition of that table that does not exist is a fault. So is an answer of `specs/Lib.antt` on whether a
module is believed that differs from what is computed here, a search over numbers that would have to be believed (SEARCHES), an entry
point with a `requires` or that is not in ENTRIES, a slice that an entry point writes and no clause determines, and a field of a demand
that the page's table does not name.

The page has digests of what is believed: of the definitions of each file with what its names mean, of the statements of the laws, of the
contracts, and of the tables written by hand with the statements that they are about. So a change within a line is noticed too.
tests/believe_changes.py makes such changes and sees that each is.
"""
import hashlib
import os
import re
import sys

ROOT = os.path.join(os.path.dirname(os.path.abspath(__file__)), '..')
CRATES = os.path.join(ROOT, 'crates')
PAGE = os.path.join(ROOT, 'docs', 'BELIEVE.md')

# The entry points, and which demand their contracts state where theorem/specs has no file for it.
ENTRIES = [
    ('fabric', 'src/lib.rt', 'wire_number', '12'),
    ('cell', 'src/logic.rt', 'lookup', '12'),
    ('config', 'src/lib.rt', 'read', '12'),
    ('config', 'src/lib.rt', 'write', '12'),
    ('config', 'src/lib.rt', 'bit_count', '12'),
    ('block', 'src/lib.rt', 'build', '12'),
    ('block', 'src/lib.rt', 'follow', '1'),
    ('contention', 'src/lib.rt', 'contentions', '1'),
    ('card', 'src/lib.rt', 'shelf_card', '1'),
    ('compare', 'src/lib.rt', 'compare', '1'),
    ('compare', 'src/part.rt', 'part_answer', '1'),
    ('compare', 'src/part.rt', 'tile_part', '1'),
    ('sim', 'src/lib.rt', 'step', '1'),
    ('moments', 'src/lib.rt', 'settle', '1'),
    ('moments', 'src/lib.rt', 'clock', '1'),
    ('asc', 'src/lib.rt', 'read', '12'),
    ('asc', 'src/lib.rt', 'text_length', '1'),
    ('asc', 'src/lib.rt', 'write', '12'),
    ('words', 'src/lib.rt', 'words_of_bytes', '12'),
    ('words', 'src/lib.rt', 'bytes_of_words', '12'),
    ('frames', 'src/input.rt', 'parse', '1'),
    ('reporting', 'src/lib.rt', 'report', '1'),
    ('capi', 'src/lib.rt', 'ice40_wire_number', '1'),
    ('capi', 'src/lib.rt', 'ice40_lookup', '1'),
    ('capi', 'src/blocks.rt', 'ice40_read', '1'),
    ('capi', 'src/blocks.rt', 'ice40_write', '1'),
    ('capi', 'src/blocks.rt', 'ice40_bit_count', '1'),
    ('capi', 'src/comparing.rt', 'ice40_compare', '1'),
    ('capi', 'src/comparing.rt', 'ice40_tile_part', '1'),
    ('capi', 'src/circuits.rt', 'ice40_build', '1'),
    ('capi', 'src/circuits.rt', 'ice40_follow', '1'),
    ('capi', 'src/circuits.rt', 'ice40_step', '1'),
    ('capi', 'src/settling.rt', 'ice40_settle', '1'),
    ('capi', 'src/settling.rt', 'ice40_clock', '1'),
    ('capi', 'src/contentions.rt', 'ice40_contentions', '1'),
    ('capi', 'src/cards.rt', 'ice40_card', '1'),
    ('capi', 'src/files.rt', 'ice40_asc_read', '1'),
    ('capi', 'src/files.rt', 'ice40_asc_length', '1'),
    ('capi', 'src/files.rt', 'ice40_asc_write', '1'),
    ('capi', 'src/forms.rt', 'ice40_words_of_bytes', '1'),
    ('capi', 'src/forms.rt', 'ice40_bytes_of_words', '1'),
]
ENTRIES += [('capi_c', *entry) for crate, *entry in ENTRIES if crate == 'capi']  # its exports

# Closed statements that stand beside a demand's own.
BESIDE = {'2': ['theorem/Forms'], '3': ['theorem/Influence']}

# The closed statements of each demand with the law that proves each, and the records that their fields speak of.
STATEMENTS = {'1': [('theorem/Demand1.Demand1', 'theorem/demand1')],
              '2': [('theorem/Demand2.Demand2', 'theorem/demand2'), ('theorem/Forms.SameForms', 'theorem/same_forms')],
              '3': [('theorem/Demand3.Demand3', 'theorem/demand3'), ('theorem/Influence.Influence', 'theorem/influence')]}
PARTS = {'theorem/Demand3.Demand3': ['theorem/Demand3.AcceptedBlock']}

# Slices whose clause has another form: the report is at the front of `out`, and the rest of it as it was.
OTHERWISE = {('report', 'out')}

# What a yes of `build`, `step`, `settle` and `clock` writes is demand 3's: where a demand's roots are contracts, it is not one of them.
WRITTEN = {'equations/Settling.block_list', 'stepper/Settling.settled_by', 'stepper/Settling.port_values', 'stepper/Clocking.next_states', 'moments/Clocking.next_states'}

# computed, what stands in its place, the laws that say so. A name is CRATE/MODULE.NAME, with * for any
# module of the crate, and a law CRATE/LAW.
COMPUTED = [
    # tests of what is also said as facts
    ('ports/Block.allowed', ['ports/Block.Allowed'], ['ports/allowed_exact']),
    ('ports/Block.sized', ['ports/Block.Sized'], ['ports/sized_exact']),
    ('ports/Ports.port_at', ['ports/PortNames.index_of', 'ports/PortNames.Within'], ['ports/index_back', 'ports/port_at_back']),
    ('config/Entry.lengths_ok', ['config/Facts.ExactLengths'], ['config/lengths_exact']),
    ('block/Lengths.build_exact', ['block/Lengths.BuildLong'], ['block/build_long_exact']),
    ('block/Lengths.follow_exact', ['block/Lengths.FollowLong'], ['block/follow_long_exact']),
    ('compare/Lengths.same_size', ['compare/Lengths.SameSize'], ['compare/same_size_exact']),
    ('compare/Lengths.compare_exact', ['compare/Lengths.CompareLong'], ['compare/compare_long_exact']),
    ('compare/Entry.compare_answer', ['compare/Meaning.CompareSays'], ['compare/compare_says', 'compare/compare_exact_lem']),
    ('compare/Entry.compared_list', ['compare/Difference.DiffersIn', 'lists/Listing.Lists'], ['compare/differences_listed']),
    ('contention/Lengths.contention_exact', ['contention/Lengths.ContentionLong'], ['contention/contention_long_exact']),
    ('sim/Lengths.step_exact', ['sim/Lengths.StepLong'], ['sim/step_long_exact']),
    ('moments/Lengths.settle_exact', ['moments/Lengths.SettleLong'], ['moments/settle_long_exact']),
    ('moments/Lengths.clock_exact', ['moments/Lengths.ClockLong'], ['moments/clock_long_exact']),
    # wires
    ('fabric/Wire.wire_of', ['fabric/Joins.Lowest'], ['fabric/wire_exact', 'fabric/wire_lowest']),
    ('fabric/Wire.wires_of', ['fabric/Joins.Lowest'], ['fabric/wires_at', 'fabric/wire_lowest']),
    ('fabric/Count.own_wire', ['fabric/Joins.Lowest'], ['fabric/wire_own_exact']),
    # a block's bits in both their forms
    ('words/Forms.past_columns', ['words/Stray.Stray'], ['words/stray_exact']),
    ('words/Stray.first_stray', ['words/Stray.LowestStray'], ['words/first_stray_exact', 'words/first_stray_none']),
    ('words/Forms.words_of', ['words/Forms.SameBits'], ['words/words_same']),
    ('words/Forms.bytes_of', ['words/Forms.SameBits'], ['words/bytes_same']),
    ('words/Answers.words_answer', ['words/Meaning.WordsSay'], ['words/words_say', 'words/words_exact']),
    ('words/Answers.bytes_answer', ['words/Meaning.BytesSay'], ['words/bytes_say', 'words/bytes_exact']),
    # the table's rules
    ('routing/TableCheck.table_ok', ['routing/Rules.TableRules'], ['routing/table_exact']),
    ('routing/TableCheck.faulty_part', ['routing/Rules.FirstBroken'], ['routing/faulty_part_exact']),
    # reading and writing
    ('codec/Decode.decode', ['codec/Reading.ReadsTo'], ['codec/decode_reads', 'codec/reads_unique']),
    ('codec/Fault.tile_fault', ['codec/Reading.Faulty'], ['codec/tile_fault_exact', 'codec/fault_exact']),
    ('codec/Limits.settings_fit', ['codec/Reading.HasBits'], ['codec/settings_fit_exact']),
    ('codec/Encode.encode', ['codec/Reading.ReadsTo', 'codec/Reading.Decodable'],
     ['codec/encode_decodable', 'codec/settings_back', 'codec/bits_back']),
    ('config/Blocks.fault_place', ['config/Facts.LowestFault'], ['config/fault_place_exact']),
    ('config/Blocks.bitless_tile', ['config/Facts.LowestBitless'], ['config/bitless_lowest']),
    ('config/Blocks.decoded', ['config/Facts.TilesRead'], ['config/decoded_at_lem', 'codec/decode_reads', 'codec/reads_unique']),
    ('config/Blocks.encoded', ['config/Facts.TilesRead'], ['config/encoded_reads', 'codec/bits_back']),
    ('config/Entry.read_answer', ['config/Meaning.ReadSays'], ['config/read_says', 'config/read_exact']),
    ('config/Entry.write_answer', ['config/WriteMeaning.WriteSays'], ['config/write_says', 'config/write_exact']),
    # building and following
    ('equations/Sources.contended_wire', ['equations/Switches.LowestContention'],
     ['equations/contended_exact', 'equations/contended_none_exact']),
    ('equations/Sources.sources_of', ['equations/Switches.Ends'], ['drivers/goes_leads', 'drivers/leads_goes', 'reporting/wire_says']),
    ('equations/Drives.drive_of', ['drivers/Following.StandsAt'], ['drivers/stands_at', 'drivers/stands_drive']),
    ('drivers/Following.driver_of', ['drivers/Following.DrivenBy'], ['drivers/driven_exact', 'drivers/driven_unique']),
    ('drivers/CarryReads.carry_read_wire', ['equations/DisabledCarry.LowestDisabledCarry'],
     ['drivers/carry_read_exact', 'drivers/carry_read_none_exact']),
    ('drivers/Clocks.clocked_tile', ['drivers/Clocks.LowestFromCell'], ['drivers/clocked_exact', 'drivers/clocked_none_exact']),
    ('loops/Loops.loop_wire', ['equations/Equations.LowestLooped'], ['loops/loop_wire_is', 'equations/loop_lowest_exact']),
    ('block/Building.list_answer', ['block/Meaning.ListSays'], ['block/list_says']),
    ('block/Building.build_answer', ['block/Meaning.BuildSays'], ['block/build_says', 'block/build_exact_lem']),
    ('block/Drivers.follow_answer', ['block/DriverMeaning.FollowSays'], ['block/follow_says', 'block/follow_exact_lem']),
    ('contention/Entry.contentions_answer', ['contention/Meaning.ContentionsSay'], ['contention/contentions_say', 'contention/contentions_exact']),
    ('contention/Entry.contentions_list', ['contention/Contentions.ContentionRow', 'lists/Listing.Lists'], ['contention/contentions_listed']),
    ('card/Entry.card_answer', ['card/Meaning.CardSays'], ['card/card_say', 'card/card_exact']),
    ('card/Entry.card_after', ['card/Card.Card'], ['card/card_is', 'card/leaving_exact', 'card/feeding_exact']),
    ('equations/Settling.block_list', ['theorem/*.Listing', 'theorem/*.OnlyChoice'], ['theorem/listing', 'theorem/demand3', 'equations/row_says']),
    # the step, settling and clocking
    ('stepper/Settling.bad_row', ['netlist/Checking.FirstBad'], ['netlist/first_bad_exact']),
    ('sim/Stepping.bad_byte', ['sim/Meaning.FirstAbove'], ['sim/step_says']),
    ('sim/Stepping.step_answer', ['sim/Meaning.StepSays'], ['sim/step_says', 'sim/step_exact_lem']),
    ('moments/Settling.settle_answer', ['moments/Meaning.SettleSays'], ['moments/settle_says', 'moments/settle_exact_lem']),
    ('moments/Clocking.clock_answer', ['moments/Meaning.ClockSays'], ['moments/clock_says', 'moments/clock_exact_lem']),
    # ASCII files; the first word of a line is said by its law alone
    ('texts/Lines.word_length', [], ['texts/word_length_at', 'texts/word_at']),
    ('asc/Answers.read_answer', ['asc/Meaning.AscSays'], ['asc/read_told', 'asc/asc_exact']),
    ('asc/Answers.bits_read', ['asc/Meaning.AscSays'], ['asc/read_told', 'asc/asc_exact']),
    ('asc/Answers.write_answer', ['asc/WriteMeaning.WriteSays'], ['asc/write_told', 'asc/write_exact']),
    # frames and the report
    ('frames/Input.parsed', ['frames/Meaning.ParsedSays'], ['frames/parsed_says', 'frames/parsed_exact']),
    ('frames/Contents.table_of', ['frames/Whole.Holds'], ['frames/table_holds']),
    ('frames/Contents.bits_of', ['frames/Whole.flat'], ['frames/bits_flat']),
    ('lines/Listing.switch_part', ['reporting/Meaning.WireSays'], ['reporting/wire_says']),
    ('reporting/Report.report_of', ['theorem/ReportGrounds.ReportSays'], ['theorem/report_exact']),
]

# A search over numbers is always computed: where one is reached, a definition that uses it lacks its row above.
SEARCHES = {'lists/Search.first', 'lists/Search.all_from', 'lists/Search.some_below'}

# The order in which the files are best read: what is of a crate that is not named comes last.
ORDER = ['names', 'ports', 'fabric', 'routing', 'digits', 'words', 'codec', 'config', 'refusal', 'cell', 'equations', 'drivers', 'block', 'netlist',
         'stepper', 'sim', 'moments', 'theorem', 'texts', 'asc', 'frames', 'lines', 'reporting', 'capi', 'capi_c', 'lists']
FIRST = ['names/specs/Names.antt', 'ports/src/size.rt', 'ports/specs/Block.antt', 'fabric/specs/Joins.antt', 'routing/specs/TileKind.antt',
         'routing/specs/LogicTile.antt', 'routing/specs/Table.antt', 'routing/specs/Rules.antt', 'words/specs/Packed.antt',
         'words/specs/Forms.antt', 'codec/specs/Bits.antt', 'codec/specs/Settings.antt', 'codec/specs/Groups.antt', 'codec/specs/Reading.antt', 'config/specs/Blocks.antt',
         'config/specs/Facts.antt', 'cell/specs/Lookup.antt', 'equations/specs/Tiles.antt', 'equations/specs/Switches.antt',
         'equations/specs/Equations.antt', 'refusal/src/lib.rt', 'drivers/src/follow.rt', 'drivers/specs/Following.antt',
         'block/src/lib.rt', 'block/src/lengths.rt', 'block/specs/Lengths.antt', 'frames/specs/Frames.antt', 'frames/specs/Whole.antt']

WORD = re.compile(r"[^\s(){};,]+")


def read(path):
    with open(path, encoding='utf-8') as f:
        return f.read()


class Definition:
    """A definition of specs/, or a type that the code declares."""

    def __init__(self, path, module, name, kind, comment):
        self.path, self.module, self.name, self.kind, self.comment = path, module, name, kind, comment
        self.lines, self.names, self.scope, self.bound = [], set(), set(), set()
        self.section, self.given = 0, []

    def key(self):
        return self.module + '.' + self.name


class Module:
    """A file of specs/: its definitions, and what each name in it means."""

    def __init__(self, crate, name, path):
        self.crate, self.name, self.path = crate, name, path
        self.key = crate + '/' + name
        self.defs, self.of, self.uses, self.aliases = [], {}, {}, {}
        self.head = ''
        text = read(path)
        self.means = meaning_of_names(text)
        take_uses(text, crate, self.uses, self.aliases)
        self.take(text.split('\n'))

    def take(self, lines):
        comment, scopes, current, section = [], [], None, 0
        for line in lines:
            bare = line.strip()
            indent = len(line) - len(line.lstrip())
            if not bare:
                comment = []
                continue
            if bare.startswith('--'):
                comment.append(bare[2:].strip())
                continue
            if bare.startswith(('use ', 'infix')):
                if not self.head:
                    self.head = ' '.join(comment)
                comment = []
                continue
            code = bare.split('  -- ')[0]
            while scopes and indent <= scopes[-1][0]:
                scopes.pop()
            module = re.match(r'module _ ?(.*) where$', code)
            if module:
                scopes.append((indent, module.group(1)))
                current, comment, section = None, [], section + 1
                continue
            new = re.match(r'(abbrev|unfoldable) (?:pub )?(\S+) :', code) or re.match(r'(?:pub )?(record|data) (\S+)', code)
            if new and (current is None or indent <= current.indent):
                current = Definition(self.path, self.key, new.group(2), new.group(1), comment)
                current.indent, current.section = indent, section
                current.given = [parameters for _, parameters in scopes]
                self.defs.append(current)
                self.of[current.name] = current
                for _, parameters in scopes:
                    current.names.update(names_in(parameters, bound(parameters)))
                    current.scope |= bound(parameters)
                comment = []
            if current is None:
                continue
            current.lines.append(code)
            if current.kind == 'data' and indent > current.indent:
                constructor = re.match(r'([^\s:()]+(?: [^\s:()]+)*) : ', code)
                if constructor and indent == current.indent + 2:
                    for name in constructor.group(1).split():
                        self.of.setdefault(name, current)
            current.names.update(words_of(code, current))
            comment = []


def meaning_of_names(text):
    """The lines of a file that say what its names and symbols mean."""
    return re.findall(r'^(?:ghost )?(?:use|infix\w*) .*$', text, re.M)


def digest(lines):
    """Ten digits that change with any word of these lines, and not with how they are laid out."""
    return hashlib.sha256(' '.join(' '.join(lines).split()).encode()).hexdigest()[:10]


def bound(text):
    """Names that a text binds: (x y : A), {x : A}, λ x. or λ (x : A)."""
    names = set()
    for group in re.findall(r'[({]([^(){}:]+) :', text):
        names.update(group.split())
    for group in re.findall(r'λ ([^.(]+)\.', text):
        names.update(group.split())
    return names


def names_in(text, but):
    names = set()
    for word in WORD.findall(text):
        if not word.startswith('.') and word not in but and word.split('.')[0] not in but:
            names.add(word)
    return names


def words_of(code, d):
    """The names that a line of a definition uses, without those that it binds or declares."""
    but = bound(code) | d.scope
    text = code
    if d.kind in ('record', 'data'):
        own = re.match(r'(?:pub )?([^\s:()]+(?: [^\s:()]+)*) : (.*)$', code)
        if re.match(r'(?:pub )?(?:record|data) ', code):
            d.scope |= bound(code)
        elif own:
            text = own.group(2)
            if d.kind == 'record':
                d.scope.add(own.group(1))
    else:
        clause = re.match(r'(.*?) =(?: |$)(.*)$', code)
        if clause and clause.group(1).split()[0] == d.name:
            pattern = WORD.findall(clause.group(1))[1:]
            d.bound = {w for w in pattern if w[0].islower() or len(w) == 1}
            text = clause.group(2) + ' ' + ' '.join(w for w in pattern if w not in d.bound)
        but |= d.bound
        text = re.sub(r'(^|[{;]) *[^\s{;]+ = ', ' ', text)
    return names_in(text, but | {d.name})


def contract_clauses(text):
    """The clauses of a contract: whether it is a `requires` or an `ensures`, its name, and what it says."""
    found = []
    for m in re.finditer(r'^ *(requires|ensures) ?(\w*) \{', text, re.M):
        depth, end = 1, m.end()
        while depth:
            depth += {'{': 1, '}': -1}.get(text[end], 0)
            end += 1
        found.append((m.group(1), m.group(2), text[m.end():end - 1]))
    return found


def take_uses(text, crate, uses, aliases):
    for path, names in re.findall(r'^(?:ghost )?use ([^\s{;]+?)\.\{([^}]*)\};?$', text, re.M):
        where = place(path, crate)
        if where:
            for name in names.split(','):
                uses[name.split(' as ')[-1].strip()] = where
    for path, name in re.findall(r'^(?:ghost )?use (\S+) as (\S+?);?$', text, re.M):
        where = place(path, crate)
        if where:
            aliases[name] = where


def place(path, crate):
    m = re.match(r'Rattle\.([A-Za-z_]+)\.specs\.(.*)$', path)
    if not m:
        return None
    owner, rest = m.groups()
    if rest.startswith('declared.'):
        parts = rest[len('declared.'):].replace('.TheVariants', '').split('.')
        return (owner, 'declared', parts[-1])
    return (owner, 'specs', rest)


class Sources:
    def __init__(self):
        self.modules, self.declared = {}, {}
        for crate in sorted(os.listdir(CRATES)):
            specs = os.path.join(CRATES, crate, 'specs')
            if os.path.isdir(specs):
                for name in sorted(os.listdir(specs)):
                    if name.endswith('.antt') and name != 'Lib.antt':
                        module = Module(crate, name[:-5], os.path.join(specs, name))
                        self.modules[module.key] = module
            self.take_types(crate)

    def take_types(self, crate):
        src = os.path.join(CRATES, crate, 'src')
        for name in sorted(os.listdir(src)) if os.path.isdir(src) else []:
            path = os.path.join(src, name)
            if not name.endswith('.rt'):
                continue
            text = read(path)
            for m in re.finditer(r'((?:^//[^\n]*\n)*)^pub (?:struct|enum) (\w+) \{\n(.*?)^\}', text, re.M | re.S):
                comment = [c[2:].strip() for c in m.group(1).split('\n') if c]
                if not comment:  # the first paragraph of the file's head
                    comment = [c[2:].strip() for c in re.match(r'(?:// [^\n]*\n)*', text).group(0).split('\n') if c]
                d = Definition(path, crate + '/declared', m.group(2), 'declared', comment)
                body = [x for x in m.group(3).split('\n') if x.strip() and not x.strip().startswith('//')]
                d.lines = ['pub'] + body + ['}']
                d.types = set(re.findall(r'\b[A-Z]\w+', ' '.join(re.sub(r'//.*', '', x) for x in body)))
                d.crate, d.text = crate, text
                self.declared[(crate, m.group(2))] = d

    def find(self, name, module_key, uses, aliases, own):
        """What a name means in a module: a definition, or None."""
        if name in own:
            return own[name]
        where = uses.get(name)
        last = name
        if where is None and '.' in name:
            first, last = name.split('.', 1)
            where = aliases.get(first)
            if where is None:  # a field of what is before the dot
                return self.find(first, module_key, uses, aliases, own)
        if where is None:
            return None
        crate, kind, rest = where
        if kind == 'declared':
            return self.declared.get((crate, rest))
        module = self.modules.get(crate + '/' + rest)
        return module.of.get(last) if module else None

    def named(self, key):
        module, name = key.rsplit('.', 1)
        for other in sorted(self.modules):
            if (other == module or module == other.split('/')[0] + '/*') and name in self.modules[other].of:
                return self.modules[other].of[name]
        return None

    def below(self, d):
        """The definitions that a definition names."""
        if d.kind == 'declared':
            found = []
            for t in sorted(d.types):
                crate = re.search(r'^use (\w+)::(?:\w+::)*' + t + ';', d.text, re.M)
                owner = d.crate if crate is None or crate.group(1) == 'crate' else crate.group(1)
                if (owner, t) in self.declared and t != d.name:
                    found.append(self.declared[(owner, t)])
            return found
        module = self.modules[d.module]
        found = []
        for name in sorted(d.names):
            other = self.find(name, module.key, module.uses, module.aliases, module.of)
            if other is not None and other is not d:
                found.append(other)
        return found

    def clauses(self, crate, file, function):
        """The signature and the contract of a function, as text; '' where there is no such function."""
        text = read(os.path.join(CRATES, crate, file))
        m = re.search(r'^pub (?:extern "C" )?fn ' + function + r"(?:<'\w+>)?\(.*?^\{", text, re.M | re.S)
        return m.group(0) if m else ''

    def contract(self, crate, file, function):
        """The definitions that the clauses of a function's contract name."""
        uses, aliases = {}, {}
        take_uses(read(os.path.join(CRATES, crate, file)), crate, uses, aliases)
        text = self.clauses(crate, file, function)
        if not text:
            return None
        found = []
        for name in sorted(names_in(' '.join(said for _, _, said in contract_clauses(text)), set())):
            other = self.find(name, None, uses, aliases, {})
            if other is not None:
                found.append(other)
        return found


def closure(sources, roots, stops):
    """What is reached from the roots, each with the one that it was reached from; and the computed ones at which it stopped."""
    way, stopped, todo = {}, {}, [(d, None) for d in roots]
    while todo:
        d, by = todo.pop(0)
        if d.key() in stops:
            if d.key() not in stopped:
                stopped[d.key()] = by
                todo.extend((sources.named(b), d) for b in stops[d.key()][0])
            continue
        if d.key() in way:
            continue
        way[d.key()] = (d, by)
        todo.extend((other, d) for other in sources.below(d))
    return way, stopped


def law_files(crate):
    proofs = os.path.join(CRATES, crate, 'proofs')
    return [read(os.path.join(proofs, f)) for f in sorted(os.listdir(proofs)) if f.endswith('.antt')]


def has_law(law):
    crate, name = law.split('/')
    pattern = re.compile(r'^\s*(?:pub )?' + re.escape(name) + r' :', re.M)
    return any(pattern.search(text) for text in law_files(crate))


def statement(law):
    """What a law states: its type, the parameters of the sections that it stands in, and what its file's names mean."""
    crate, name = law.split('/')
    for text in law_files(crate):
        found = re.search(r'^( *)(?:pub )?' + re.escape(name) + r' :.*\n(?:(?! *unfolding | *' + re.escape(name) + r'[ \n]).*\n)*', text, re.M)
        if found:
            sections, indent = [], len(found.group(1))
            for line in reversed(text[:found.start()].split('\n')):
                if line.strip() and len(line) - len(line.lstrip()) < indent and line.strip().startswith('module _'):
                    sections, indent = [line] + sections, len(line) - len(line.lstrip())
            return meaning_of_names(text) + sections + [line.split(' -- ')[0] for line in found.group(0).split('\n') if not line.strip().startswith('--')]
    return []


def roots_of(sources, demand):
    """The roots of a demand, and where they stand."""
    module = sources.modules.get('theorem/Demand' + demand)
    if module:
        beside = BESIDE.get(demand, [])
        defs = [d for m in [module] + [sources.modules[name] for name in beside] for d in m.defs]
        return defs, ' and '.join(['theorem/specs/Demand%s.antt' % demand] + ['%s.antt' % name.replace('/', '/specs/') for name in beside])
    found = []
    for crate, file, function, demands in ENTRIES:
        if demand in demands:
            found.extend(d for d in sources.contract(crate, file, function) or [] if d.key() not in WRITTEN)
    return found, 'the contracts of the entry points'


def short(path):
    return os.path.relpath(path, CRATES)


def rank(path):
    name = short(path)
    crate = name.split('/')[0]
    return (ORDER.index(crate) if crate in ORDER else len(ORDER), FIRST.index(name) if name in FIRST else len(FIRST), name)


def counted(defs):
    return len(defs), sum(len(d.lines) for d in defs)


def sentence(comment, most=230):
    text = ' '.join(comment).replace('|', '\\|')
    if len(text) <= most:
        return text
    cut = text[:most]
    end = max(cut.rfind('. '), cut.rfind('; '))
    return (cut[:end] if end > 80 else cut[:cut.rfind(' ')]).rstrip('.;:,') + ' ..'


def title(demand):
    return {'contracts': 'the contracts', 'names': 'the names to try'}.get(demand, 'demand ' + demand)


def lists(sources, reached):
    """The lists of the page: files for each demand, then the definitions file by file."""
    parts = {}
    for demand, (way, stopped, where) in reached.items():
        files = {}
        for d, _ in way.values():
            files.setdefault(d.path, []).append(d)
        n, lines = counted([d for d, _ in way.values()])
        rows = ['%d definitions, %d lines, from %s. The files, each with the number of definitions:' % (n, lines, where), '']
        crates = {}
        for path in sorted(files, key=rank):
            crate, name = short(path).split('/', 1)
            crates.setdefault(crate, []).append('%s (%d)' % (re.sub(r'^specs/(.*).antt$', r'\1', name), len(files[path])))
        rows.extend('- %s: %s' % (crate, ', '.join(names)) for crate, names in crates.items())
        parts[title(demand)] = rows
    of = {}
    for demand, (way, _, _) in reached.items():
        for key, (d, _) in way.items():
            of.setdefault(key, (d, set()))[1].add(demand)
    files = {}
    for d, demands in of.values():
        files.setdefault(d.path, []).append(d)
    rows = []
    for path in sorted(files, key=rank):
        defs = files[path]
        n, lines = counted(defs)
        demands = sorted(set(x for d in defs for x in of[d.key()][1]))
        numbers = [x for x in demands if x.isdigit()]
        others = [title(x) for x in demands if not x.isdigit() and not (numbers and x == 'contracts')]
        users = (['demand%s %s' % ('' if len(numbers) == 1 else 's', ', '.join(numbers))] if numbers else []) + others
        rows.append('**%s**: %d definition%s, %d line%s, for %s. Digest %s.' % (
            short(path), n, '' if n == 1 else 's', lines, '' if lines == 1 else 's', ' and '.join(users), file_digest(sources, defs)))
        rows.append('')
        group = section = None
        if defs[0].kind == 'declared':
            order = sorted(defs, key=lambda d: d.name)
        else:
            order = [d for d in sources.modules[defs[0].module].defs if d.key() in of]
        for d in order:
            if d.comment or group is None or d.kind in ('record', 'data', 'declared') or d.section != section:
                group, section = ['`%s`' % d.name], d.section
                alone = d.kind != 'declared' and d is sources.modules[d.module].defs[0]
                rows.append((group, sentence(d.comment or ([sources.modules[d.module].head] if alone else []))))
            else:
                group.append('`%s`' % d.name)
        rows = ['- %s%s' % (', '.join(r[0]), ': ' + r[1] if r[1] else '') if isinstance(r, tuple) else r for r in rows]
        rows.append('')
    parts['definitions'] = rows[:-1]
    stops = sorted(set(k for _, stopped, _ in reached.values() for k in stopped), key=lambda k: (rank(sources.named(k).path), k))
    table = {c: (b, l) for c, b, l in COMPUTED}
    rows = ['| Computed | What is believed in its place | Laws, with the digests of their statements |', '|---|---|---|']
    for k in stops:
        believed, laws = table[k]
        rows.append('| `%s`, %s | %s | %s |' % (k.rsplit('.', 1)[1], short(sources.named(k).path), ', '.join('`%s`' % b.rsplit('.', 1)[1] for b in believed),
                    ', '.join('`%s` (%s, %s)' % (l.split('/')[1], l.split('/')[0], digest(statement(l))) for l in laws)))
    parts['computed'] = rows
    rows = ['| Entry point | Clauses | Digest |', '|---|---|---|']
    for crate, file, function, _ in ENTRIES:
        labels = [name or '(the answer)' for kind, name, _ in contract_clauses(sources.clauses(crate, file, function)) if kind == 'ensures']
        means = meaning_of_names(read(os.path.join(CRATES, crate, file)))
        rows.append('| [`%s::%s`](../crates/%s/%s) | %s | %s |' % (
            crate, function, crate, file, ', '.join(labels), digest(means + sources.clauses(crate, file, function).split('\n'))))
    parts['entry points'] = rows
    for demand, statements in STATEMENTS.items():
        names = ['`%s`' % law.split('/')[1] for _, law in statements]
        parts['read, demand ' + demand] = ['The table above, and what %s state%s, were last read together at the digests %s and %s.' % (
            ' and '.join(names), 's' if len(names) == 1 else '', digest(by_hand(demand).split('\n')), digest([x for _, law in statements for x in statement(law)]))]
    return parts


def file_digest(sources, defs):
    """Of the definitions of one file, in its order, with what its names mean."""
    if defs[0].kind == 'declared':
        return digest([x for d in sorted(defs, key=lambda d: d.name) for x in [d.name] + d.lines])
    module = sources.modules[defs[0].module]
    return digest(module.means + [x for d in module.defs if d in defs for x in d.given + d.lines])


def by_hand(demand):
    """What the page says of a demand, without the lists that are written by this script."""
    text = read(PAGE) if os.path.exists(PAGE) else ''
    part = re.search(r'^## Demand %s:.*?(?=^## |\Z)' % demand, text, re.M | re.S)
    return re.sub(r'<!-- begin: (.*?) -->.*?<!-- end: \1 -->', '', part.group(0), flags=re.S) if part else ''


def fields_faults(sources):
    """Every field of a closed statement is named in the page's table for its demand."""
    faults = []
    for demand, statements in STATEMENTS.items():
        named = set(re.findall(r'`([^`]+)`', by_hand(demand)))
        for key, law in statements:
            if not has_law(law):
                faults.append('no law %s' % law)
            for d in [sources.named(key)] + [sources.named(k) for k in PARTS.get(key, [])]:
                fields = [m.group(1) for m in (re.match(r'pub (\S+) :', line) for line in d.lines[1:]) if m]
                faults.extend('docs/BELIEVE.md: `%s` of %s is not in the table of demand %s' % (f, d.name, demand) for f in fields if f not in named)
    return faults


def memory_faults(sources):
    """Each slice that an entry point writes has a clause of its name, by `output` or `work_room`; the code's entry points for C are all listed."""
    faults = []
    for crate, file, function, _ in ENTRIES:
        text = sources.clauses(crate, file, function)
        clauses = {name: said for kind, name, said in contract_clauses(text) if kind == 'ensures'}
        for name in re.findall(r'(\w+): &mut \[', text.split('ensures')[0]):
            if not re.search(r'\b(output|work_room)\b', clauses.get(name, '')) and (function, name) not in OTHERWISE:
                faults.append('%s::%s: no clause says what is in %s afterwards' % (crate, function, name))
    listed = set(function for crate, _, function, _ in ENTRIES if crate == 'capi_c')
    src = os.path.join(CRATES, 'capi_c', 'src')
    exported = set(x for f in sorted(os.listdir(src)) for x in re.findall(r'extern "C" fn (\w+)', read(os.path.join(src, f))))
    return faults + ['%s is no entry point of this script' % x for x in sorted(exported - listed)]


def marked(text, name, rows):
    """The page with the list of this name put in, or None where it has no such markers."""
    begin, end = '<!-- begin: %s -->' % name, '<!-- end: %s -->' % name
    if begin not in text or end not in text:
        return None
    return text[:text.index(begin) + len(begin)] + '\n' + '\n'.join(rows) + '\n' + text[text.index(end):]


def contents_faults(sources, believed):
    """A contents page says 'believed' of a module exactly if something in it is."""
    faults = []
    for key, module in sorted(sources.modules.items()):
        if module.crate == 'theorem':
            continue
        lib = os.path.join(CRATES, module.crate, 'specs', 'Lib.antt')
        m = re.search(r'^pub mod ' + module.name + r'\s+-- (.*)$', read(lib), re.M)
        if not m:
            faults.append('%s: no line for %s' % (short(lib), module.name))
            continue
        line = m.group(1)
        says = line.startswith('believed')
        if says != (key in believed):
            faults.append('%s: %s is %sbelieved' % (short(lib), module.name, '' if key in believed else 'not '))
        if not says and not line.startswith(('computed: ', 'inner')):
            faults.append('%s: %s: neither believed, computed nor inner' % (short(lib), module.name))
        for names in re.findall(r'computed: ([a-z0-9_, -]+)', line):
            for law in names.replace('-', '_').split(', '):
                if not any(has_law(c + '/' + law) for c in os.listdir(CRATES) if os.path.isdir(os.path.join(CRATES, c, 'proofs'))):
                    faults.append('%s: %s: no law %s' % (short(lib), module.name, law))
    return faults


def main():
    sources = Sources()
    faults = []
    for computed, believed, laws in COMPUTED:
        faults.extend('no definition %s' % x for x in [computed] + believed if sources.named(x) is None)
        faults.extend('no law %s' % x for x in laws if not has_law(x))
    for crate, file, function, _ in ENTRIES:
        if sources.contract(crate, file, function) is None:
            faults.append('no entry point %s of %s' % (function, crate))
    if faults:
        print('\n'.join(faults))
        return 1
    stops = {c: (b, l) for c, b, l in COMPUTED}
    reached = {}
    for demand in ('1', '2', '3'):
        roots, where = roots_of(sources, demand)
        reached[demand] = closure(sources, roots, stops) + (where,)
    contracts = [d for crate, file, function, _ in ENTRIES for d in sources.contract(crate, file, function)]
    reached['contracts'] = closure(sources, contracts, stops) + ('the contracts of the entry points',)
    names = [d for key in ('names/Names', 'names/NamedGroup') for d in sources.modules[key].defs]
    reached['names'] = closure(sources, names, stops) + ('names/specs/Names.antt',)
    if '--why' in sys.argv:
        name = sys.argv[sys.argv.index('--why') + 1]
        for demand, (way, stopped, _) in reached.items():
            for key in [k for k in list(way) + list(stopped) if k.rsplit('.', 1)[1] == name]:
                chain, by = [key], way[key][1] if key in way else stopped[key]
                while by is not None:
                    chain.append(by.key())
                    by = way[by.key()][1] if by.key() in way else stopped[by.key()]
                print(demand + ': ' + ' < '.join(chain))
        return 0
    everything = [d for m in sources.modules.values() for d in m.defs]
    for demand, (way, stopped, where) in reached.items():
        print('%s: %d definitions, %d lines (from %s)' % ((title(demand),) + counted([d for d, _ in way.values()]) + (where,)))
    union = {}
    for demand, (way, _, _) in reached.items():
        union.update({k: d for k, (d, _) in way.items()})
    print('together: %d definitions, %d lines, of %d and %d in specs/' % (counted(union.values()) + counted(everything)))
    for key in sorted(SEARCHES & set(union)):
        by = next(way[key][1] for way, _, _ in reached.values() if key in way)
        faults.append('%s would have to be believed, by way of %s' % (key, by.key() if by else 'a contract'))
    for crate, file, function, _ in ENTRIES:
        if re.search(r'^ *requires', sources.clauses(crate, file, function), re.M):
            faults.append('%s::%s has a requires' % (crate, function))
    parts = lists(sources, reached)
    text = page = read(PAGE) if os.path.exists(PAGE) else ''
    for name, rows in parts.items():
        new = marked(page, name, rows)
        if new is None:
            faults.append('docs/BELIEVE.md: no markers for the list "%s"' % name)
        else:
            page = new
    if page != text:
        if '--page' in sys.argv:
            with open(PAGE, 'w', encoding='utf-8') as f:
                f.write(page)
            print('docs/BELIEVE.md: written')
        else:
            faults.append('docs/BELIEVE.md is not what the sources give: run tests/believe.py --page, and read what it changed')
    faults.extend(contents_faults(sources, set(d.module for d in union.values())))
    faults.extend(fields_faults(sources) + memory_faults(sources))
    print('\n'.join(faults + ['%d differences' % len(faults)]))
    return 1 if faults else 0


if __name__ == '__main__':
    sys.exit(main())
