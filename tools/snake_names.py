#!/usr/bin/env python3
"""Brings the repository's own definitions and lemmas to the spelling of the library: facts and types in upper camel
case, everything else in snake case. Run it once, at the top, right after the kit's port script.

It renames what specs/ and proofs/ declare, wherever antt text names it: in .antt files, in the ghost text of .rt files,
and between backquotes in README.md and docs/. Names that Rattle makes (goals, steps, fields behind a dot) stay.
It stops, and writes nothing, where two names would fall together."""
import collections
import glob
import re
import sys

WORD = re.compile(r"[^\W\d][\w'-]*", re.UNICODE)
DECLARED = re.compile(r"^\s*(?:(?:abbrev|pub|unfoldable|data|record)\s+)*([^\W\d][\w'-]*)\s*(?:\(|\{|:)", re.UNICODE)
# two names joined by a dash: the left side of the lemma, the outer call first
JOINED = ('length-fragmentBytes', 'length-slotBytes', 'length-xorAll', 'slotIn-fragmentBytes', 'xorAll-append',
          'risesFrom-map', 'risesFrom-put', 'risesFrom-without', 'All-take')
# names of the library, and lemmas that it joins by a dash, as local names
LIBRARY = ('length-append', 'get_or-append_right')
# lemmas that would have the name of their function
LEMMAS = {'bytes-at': 'bytes_at_lem', 'at-end': 'at_end_lem', 'is-numeral': 'is_numeral_lem', 'key-number': 'key_number_lem',
          'piece-at': 'piece_at_lem', 'meaning-of': 'meaning_of_lem', 'held-record': 'held_record_lem', 'bytes-of': 'bytes_of_lem'}
# the same, in the crate in which the port script has turned the lemma's name already
LEMMAS_OF = {'ordered': {'turned_right': 'turned_right_lem'}, 'shelf': {'key_in': 'key_in_lem'}, 'log_server': {'in_order': 'in_order_lem'}}
# fields of records of specs/
FIELDS = ('of-key', 'of-bytes', 'rest-stays')


def snake(part):
    return re.sub(r'(?<=[a-z0-9])([A-Z])', lambda m: '_' + m.group(1).lower(), part)


def spelled(name):
    if name in LIBRARY:
        return name
    if name in LEMMAS:
        return LEMMAS[name]
    if name in JOINED:
        return '-'.join(p if p[0].isupper() else snake(p) for p in name.split('-'))
    if name[0].isupper():
        return ''.join(p[0].upper() + p[1:] for p in name.split('-'))
    return '_'.join(snake(p) for p in name.split('-'))


def declared(files):
    names = set()
    for f in files:
        for line in open(f, encoding='utf-8'):
            m = DECLARED.match(line)
            if m and ': goal.' not in line and not line.startswith('use '):
                names.add(m.group(1))
    return names


def turn_line(line, names):
    out, last = [], 0
    for m in WORD.finditer(line):
        word = m.group(0)
        behind_dot = m.start() and line[m.start() - 1] == '.' and not line[m.start() - 2:m.start() - 1].isspace()
        if word in names and (not behind_dot or word in FIELDS):
            out += [line[last:m.start()], names[word]]
            last = m.end()
    return ''.join(out) + line[last:]


def turn_antt(text, names):
    rows = []
    for line in text.split('\n'):
        code, dash, said = line.partition('-- ') if line.lstrip().startswith('-- ') else (line, '', '')
        rows.append(turn_line(code, names) + dash + said)
    return '\n'.join(rows)


def turn_rt(text, names):
    """Only ghost text: clauses, ghost fields and members, and ghost imports."""
    rows, depth = [], 0
    for line in text.split('\n'):
        ghost = re.match(r'\s*(pub )?(ghost|requires|ensures)\b', line)
        if ghost or depth > 0:
            depth += line.count('{') - line.count('}')
            line = turn_line(line, names)
        rows.append(line)
    return '\n'.join(rows)


def turn_page(text, names):
    return re.sub(r'`[^`\n]+`', lambda m: turn_line(m.group(0), names), text)


def names_in(f, names):
    return {**names, **LEMMAS_OF.get(f.split('/')[1] if f.startswith('crates/') else '', {})}


def words_of(f):
    """The words of a file's antt text, but those of paths."""
    text = open(f, encoding='utf-8').read()
    if f.endswith('.rt'):
        text = '\n'.join(line for line in text.split('\n') if re.match(r'\s*(pub )?(ghost|requires|ensures)\b', line))
    return set(WORD.findall(re.sub(r'Rattle(\.[\w+]+)+', '', text)))


def fall_together(files, all_names):
    bad = []
    by_crate = collections.defaultdict(lambda: collections.defaultdict(set))
    for f in files:
        words, names = words_of(f), names_in(f, all_names)
        for w in words:
            if w in names:
                by_crate[f.split('/')[1]][names[w]].add(w)
        for w in words & set(names):
            if names[w] in words and names[w] not in names:
                bad.append(f'{f}: {w} and {names[w]} fall together')
    for crate, made in by_crate.items():
        for new, olds in made.items():
            if len(olds) > 1:
                bad.append(f'{crate}: {sorted(olds)} fall together as {new}')
    return bad


def main():
    antt = sorted(glob.glob('crates/*/specs/**/*.antt', recursive=True) + glob.glob('crates/*/proofs/**/*.antt', recursive=True))
    code = sorted(glob.glob('crates/*/src/**/*.rt', recursive=True))
    names = {n: spelled(n) for n in declared(antt) if spelled(n) != n}
    bad = fall_together(antt + code, names)
    if bad:
        sys.exit('\n'.join(bad))
    for files, turn in ((antt, turn_antt), (code, turn_rt), (['README.md'] + sorted(glob.glob('docs/*.md')), turn_page)):
        for f in files:
            text = open(f, encoding='utf-8').read()
            new = turn(text, names_in(f, names))
            if new != text:
                open(f, 'w', encoding='utf-8').write(new)
    print(f'{len(names)} names')


main()
