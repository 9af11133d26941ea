"""What the tools of cases share: lists as terms, definitions over lines, theorems that computing proves, and their files,
which are written or compared with what is there."""

import re
import textwrap

WIDTH = 120             # a definition's lines are broken here, where they can be
MOST = 160              # no line is longer; a record is broken only for this, since it has a line for each field then
LONG_HEX = 40           # so many bytes may be one number, which no line can break


def listed(terms):
    """A list as an argument."""
    return '(%s)' % ' ∷ '.join(terms + ['[]']) if terms else '[]'


def numbers(items):
    return listed([str(item) for item in items])


def flag(value):
    return 'true' if value else 'false'


def maybe(value, term):
    return 'None' if value is None else '(Some %s)' % term(value)


def theorem_names(kind, shown):
    """A name for each text that says what a case shows."""
    names, seen = [], {}
    for text in shown:
        name = kind + '_' + re.sub(r'[^a-z0-9]+', '_', text.lower()).strip('_')
        seen[name] = seen.get(name, 0) + 1
        names.append(name if seen[name] == 1 else '%s_%d' % (name, seen[name]))
    return names


def theorem(name, shows, pairs, unfolding):
    """The lines of a theorem: the sides of each pair compute to the same."""
    sides = ['%s ≡ %s' % pair for pair in pairs]
    statement = sides[0] if len(sides) == 1 else ' × '.join('(%s)' % side for side in sides)
    proof = 'refl' if len(sides) == 1 else '(%s)' % ', '.join(['refl'] * len(sides))
    return ['', '-- ' + shows, 'pub %s : %s' % (name, statement), 'unfolding ' + unfolding, '%s = %s' % (name, proof)]


def cut_hex(term):
    """The term with each number of many bytes as several."""
    def several(found):
        digits = found.group(1)
        parts = [digits[at:at + 2 * LONG_HEX] for at in range(0, len(digits), 2 * LONG_HEX)]
        return ' ++ '.join('hex %d 0x%s' % (len(part) // 2, part) for part in parts)
    return re.sub(r'hex \d+ 0x([0-9a-f]{%d,})' % (2 * LONG_HEX + 1), several, term)


def cut(term, marks, deepest=float('inf')):
    """The term in pieces, cut at the marks that are in the fewest parentheses, where these are no more than `deepest`: a
    line that ends in few of them is easier to read. `∷` ends its piece; `++` and a parenthesis begin theirs. A text and a
    record stay whole, since `rt fmt` gives each field of a broken record a line of its own."""
    places, depth, braces, at = [], 0, 0, 0
    for part in re.findall(r'"[^"]*"| ∷ |; | \+\+ | \(|.', term):
        if part in marks and not braces:
            places.append((depth, at, part))
        if part[0] != '"':
            depth += part.count('(') - part.count(')')
            braces += part.count('{') - part.count('}')
        at += len(part)
    fewest = min([found for found, _, _ in places], default=0)
    pieces, begun = [], 0
    for found, at, part in places:
        if found == fewest <= deepest:
            pieces.append(term[begun:at] + (' ∷' if part == ' ∷ ' else ''))
            begun = at + (1 if part in (' ++ ', ' (') else len(part))
    return pieces + [term[begun:]]


def parts_of(term):
    """The parts of a term that may have lines of their own: the items of a list, or else several arguments."""
    joins = (' ∷ ', ' ++ ')
    items, arguments = cut(term, joins, 0), cut(term, (' (',), 0)
    return items if len(items) > 1 else arguments if len(arguments) > 2 else cut(term, joins)


def filled(term, margin):
    """A term over lines. A part that a line has no room for is cut once more, and has its lines alone."""
    rows, row = [], margin
    parts = parts_of(term)
    for part in parts:
        if len(margin + part) > WIDTH and len(parts) > 1:
            rows, row = rows + [row] + filled(part, margin), margin
        elif row.strip() and len(row + ' ' + part) > WIDTH:
            rows, row = rows + [row], margin + part
        else:
            row += part if row == margin else ' ' + part
    return [each for each in rows + [row] if each.strip()]


def laid_out(term, margin, before, after):
    """A term over as many lines as it takes, with what comes before it and after it, as `rt fmt` leaves it."""
    row = margin + before + term + after
    record = re.fullmatch(r'(record (?:\(.*?\) )?\{) (.*) \}', term)
    if len(row) <= (MOST if record else WIDTH):
        return [row]
    if record:
        fields = [field.partition(' = ') for field in cut(record.group(2), ('; ',))]
        rows = [line for name, _, value in fields for line in laid_out(value, margin + '  ', name + ' = ', ';')]
        return [margin + before + record.group(1)] + rows + [margin + '}' + after]
    inner, items = margin + '    ', cut(term, (' ∷ ',))
    if '{' in term and items[-1] == '[]':
        ends = [' ∷'] * (len(items) - 2) + [' ∷ []' + after]
        rows = [line for item, end in zip(items, ends) for line in laid_out(item.removesuffix(' ∷'), inner, '', end)]
    else:
        rows = filled(term, inner)
        rows[-1] += after
    return [margin + before.rstrip()] * bool(before) + rows


def definition(shows, name, kind, term):
    """The lines of a definition, with what it shows as a comment."""
    comment = textwrap.wrap('-- ' + shows, WIDTH, subsequent_indent='-- ', break_on_hyphens=False)
    rows = comment + ['abbrev pub %s : %s' % (name, kind)] + laid_out(cut_hex(term), '', name + ' = ', '')
    assert all(len(row) <= MOST for row in rows), name
    return [''] + rows


def unfoldable(path):
    """The names of a file of definitions that a proof has to unfold."""
    return re.findall(r'^unfoldable pub (\w+)', path.read_text(), re.M)


def use(module, names):
    """The line that takes these names of a module, or no line."""
    return ['use Rattle.%s.{%s}' % (module, ', '.join(dict.fromkeys(names)))] if names else []


def opened(unfolded, variants, words):
    """The lines that take what is unfolded, by module, and the variants that are among these words."""
    taken = {module: list(names) for module, names in unfolded.items()}
    for module, names in variants.items():
        taken.setdefault(module, []).extend(name for name in names if name in words)
    return [line for module in sorted(taken) for line in use(module, taken[module])]


def cases_text(title, uses, named_cases, pairs, unfolding):
    """The text of a file of cases: what it takes, and the theorem of each case, which has one pair of sides or several."""
    lines = ['-- ' + title] + uses
    for (name, case), some in zip(named_cases, pairs):
        lines += theorem(name, case['shows'], some if isinstance(some, list) else [some], unfolding)
    return '\n'.join(lines) + '\n'


def in_files(folder, stem, cases, most, text):
    """The text of each file of a folder, that has so many of the cases at most."""
    return {folder / ('%s%d.antt' % (stem, part)): text(cases[at:at + most])
            for part, at in enumerate(range(0, len(cases), most), 1)}


def library_text(folder, stems, files):
    """The list of a folder's modules: those of these files, and those of other names."""
    lines = (folder / 'Lib.antt').read_text().split('\n')
    others = {line for line in lines if line and not re.fullmatch(r'.* (%s)\d+' % '|'.join(stems), line)}
    return '\n'.join(sorted(others | {'mod ' + path.stem for path in files if path.parent == folder})) + '\n'


def write_or_check(tool, stems, files, arguments):
    """Writes the files, lists them as modules, and removes old ones; with --check it reports what isn't as it would be.

    `stems` has the beginnings of the names of the files in each folder of modules, `files` the text of each path. The
    answer is the exit status.
    """
    old = [path for folder, names in stems.items() for name in names for path in folder.glob(name + '[0-9]*.antt')
           if path not in files]
    files |= {folder / 'Lib.antt': library_text(folder, names, files) for folder, names in stems.items()}
    if arguments == ['--check']:
        stale = old + [path for path, text in files.items() if not path.exists() or path.read_text() != text]
        for path in stale:
            print('not as tools/%s writes it: %s' % (tool, path.name))
        print('%d passed, %d failed' % (len(files.keys() - stale), len(stale)))
        return 1 if stale else 0
    for path in old:
        path.unlink()
    for path, text in files.items():
        path.write_text(text)
    return 0


def write_cases(tool, folder, stem, named_cases, most, text, arguments):
    """The same for a tool whose cases are all of one kind."""
    return write_or_check(tool, {folder: [stem]}, in_files(folder, stem, named_cases, most, text), arguments)
