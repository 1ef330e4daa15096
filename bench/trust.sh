#!/usr/bin/env bash
# bench/trust.sh [LINES]: counts the definitions that the headline and the clauses of the command reach, and writes docs/TRUST.md anew: what
# stands above its line `<!-- counted -->` is kept as it is; from there on all is made. `bench/trust.sh files` writes nothing, and prints them
# file by file, crate by crate in the order of crates.txt, with the Rust types of each crate and the line of each definition.
#
# How it counts. A definition is an item of a crate's specs/ (abbrev, unfoldable, record, data, syntax), with its clauses
# up to the next item. It reaches what it names: a name of its own file, or one that a `use` of its file imports, also as
# another name; a whole import (`as`) counts for the names that are written with it. A name that a definition binds itself (a
# field, an argument) isn't followed. A Rust type (`specs.declared`) counts as one, by its item in src/, and reaches nothing.
# The kit's own library isn't counted. Names in comments don't count. Of a trait its ghost items count, and what its clauses reach.
# What a sender enters in ledgers, what lies in pipes, and which program runs in a slot isn't followed from `Safe` and `Promise` unless a
# definition there reads it, other than to make the next state's (`PASS_ON`). Two tables above the line are read: each file of "In an hour" is counted, and each file that these name must
# stand there or under "What may be skipped at first". It ends with 1, and says so, if one doesn't, or if a limit is passed.
# LINES: how many lines to show of what wasn't found (0 without it).
set -eu
cd "$(dirname "$0")/.."
python3 - "${1:-0}" <<'PYTHON'
import collections, os, re, sys

crates = [l.split('#')[0].split(':')[0].strip() for l in open('crates.txt')]
crates = [c.split()[0] for c in crates if c and os.path.isdir(f'crates/{c}')]
place = {c: k for k, c in enumerate(crates)}
HEAD = re.compile(r'^(?:(?:abbrev|unfoldable|record|data|syntax)\b|pub (?:record|data|abbrev|unfoldable|syntax)\b)|^ +(?:(?:abbrev|unfoldable) pub|pub (?:record|data|abbrev|unfoldable))\b')
NAME = re.compile(r'^ *(?:pub )?(?:(?:abbrev|unfoldable|record|data|syntax) )*(?:pub )?(?:(?:record|data|abbrev|unfoldable) )?([^\s:({\[]+)')
WORD = re.compile(r"[^\s(){}\[\];,.:→λ×≡∷◌«»]+")
TOKEN = re.compile(r"[^\s(){}\[\];,:→λ×≡∷◌«»]+")


def imports(line):
    """The names that a `use` line brings in: local name -> (module path, name); whole modules: local name -> path."""
    line = re.sub(r'^(?:pub )?(?:ghost )?use ', '', line.strip().rstrip(';'))
    got = re.match(r'^(.*)\.\{(.*)\}$', line)
    if got:
        for part in got.group(2).split(','):
            part = part.strip()
            if not part:
                continue
            name, _, other = part.partition(' as ')
            yield (other or name).strip(), (got.group(1), name.strip())
        return
    path, _, other = line.partition(' as ')
    if other:
        yield other.strip(), (path.strip(), None)


files = {}


def read(crate, rel):
    """A file of specs/: its imports, and its items: name -> (first line, last line, text)."""
    key = (crate, rel)
    if key in files:
        return files[key]
    path = f'crates/{crate}/specs/{rel.replace(".", "/")}.antt'
    names, items = {}, collections.OrderedDict()
    if os.path.isfile(path):
        lines = open(path).read().split('\n')
        k = 0
        while k < len(lines):
            line = lines[k]
            if re.match(r'^(pub )?use ', line):
                names.update(imports(line))
            if HEAD.match(line):
                end = k + 1
                while end < len(lines) and not HEAD.match(lines[end]) and not re.match(r'^-- ', lines[end]):
                    end += 1
                while end > k + 1 and (not lines[end - 1].strip() or lines[end - 1].strip().startswith('-- ')):
                    end -= 1
                name = NAME.match(line).group(1)
                text = '\n'.join(l.split('-- ')[0] if l.strip().startswith('--') else l for l in lines[k:end])
                first = k
                while first > 0 and lines[first - 1].strip().startswith('-- '):
                    first -= 1
                items[name] = (first + 1, end, text)
                for inner in re.findall(r'^  pub ([^\s:({\[]+)', text, re.M):
                    items.setdefault(name + '.' + inner, None)
                k = end
                continue
            k += 1
    files[key] = (names, items)
    return files[key]


def passed_on(crate):
    """The modules of other crates that a crate's specs/Lib.antt passes on: name -> path."""
    path = f'crates/{crate}/specs/Lib.antt'
    lines = open(path).read().split('\n') if os.path.isfile(path) else []
    return {l.split('.')[-1]: l[len('pub use '):] for l in lines if re.match(r'^pub use [\w.]+$', l)}


HOUR, PROMISE = 1400, 2400
SMALL = ('mail_bytes',)
reached, types, missing, queue = {}, {}, collections.Counter(), collections.deque()
PASS_ON = {('mail_world', 'History', n) for n in ('State', 'bouncer_of', 'acted', 'finished', 'begins', 'bears', 'happens', 'opening')}
PASS_ON |= {('world_pipes', 'Pipework', n) for n in ('pipework_after', 'with_child', 'without_writer', 'with_generation', 'with_report', 'no_pipework')}
PIPES = ('pipes_after', 'gives', 'put_pipe', 'with_output', 'writer', 'is_writer', 'given', 'taken', 'closed', 'fresh')
ASIDE = {
    'ledger': ('What a sender enters in ledgers', {('mail_world', 'History', 'told_by')}),
    'pipes': ('What lies in pipes', {('world_pipes', 'Pipework', n) for n in PIPES}),
    'programs': ('Which program runs in a slot', {('mail_world', 'History', 'bouncer_of')} | {('world_pipes', 'Pipework', n) for n in ('programs_after', 'put_program')}),
}
unfollowed = set().union(*(makers for _, makers in ASIDE.values()))


def place_of(path, name):
    """Where a name of a module stands: its crate, its file and the definition; none if that isn't of ours."""
    parts = path.split('.')
    if parts[0] != 'Rattle' or parts[1] not in place or parts[2] != 'specs' or parts[3] == 'declared':
        return None
    crate, rest = parts[1], parts[3:]
    if rest[0] in passed_on(crate):
        return place_of('.'.join([passed_on(crate)[rest[0]], *rest[1:]]), name)
    while rest:
        names, items = read(crate, '.'.join(rest))
        if items or names:
            inner = parts[3 + len(rest):]
            whole = inner[0] if inner else name
            if whole in items and items[whole]:
                return crate, '.'.join(rest), whole
            return place_of(*names[whole]) if whole in names and names[whole][1] else None
        rest = rest[:-1]
    return None


def go(path, name, why):
    """Reaches one name of one module."""
    if not path.startswith('Rattle.'):
        return
    parts = path.split('.')
    crate = parts[1]
    if crate not in place:
        return
    if parts[2:4] == ['specs', 'declared']:
        item = [p for p in parts[4:] if p != 'TheVariants']
        types.setdefault((crate, '.'.join(item)), True)
        return
    if parts[2] != 'specs':
        return
    rest = parts[3:]
    if rest[0] in passed_on(crate):
        go('.'.join([passed_on(crate)[rest[0]], *rest[1:]]), name, why)
        return
    while rest:
        names, items = read(crate, '.'.join(rest))
        if items or names:
            inner = parts[3 + len(rest):]
            whole = inner[0] if inner else name
            if whole is None:
                return
            if whole in items and items[whole]:
                if (crate, '.'.join(rest), whole) not in reached and (crate, '.'.join(rest), whole) not in unfollowed:
                    reached[(crate, '.'.join(rest), whole)] = items[whole]
                    queue.append((crate, '.'.join(rest), whole))
                return
            if whole in names:
                go(*names[whole], why)
                return
            missing[f'{path}.{name} ({why})'] += 1
            return
        rest = rest[:-1]
    missing[f'{path} ({why})'] += 1


def clauses(name, text):
    """A definition's signature and its clauses, each with the names that are bound in it."""
    parts, now = [], []
    for line in text.split('\n'):
        if now and line.lstrip().startswith(name + ' ') and now[-1]:
            parts.append('\n'.join(now))
            now = []
        now.append(line)
    parts.append('\n'.join(now))
    for part in parts:
        bound = set(re.findall(r'^ +pub ([^\s:({\[]+) :', part, re.M)) | set(re.findall(r'\blet (\w+) =', part))
        for group in re.findall(r'[({]([^(){}:]+) :', part) + re.findall(r'λ ([^.()]+)\.', part):
            bound.update(group.split())
        if part.lstrip().startswith(name + ' ') and ' = ' in part.replace('\n', ' '):
            left = part.replace('\n', ' ').split(' = ')[0]
            bound.update(w for w in WORD.findall(left)[1:] if w[0].islower())
        yield part, bound


def named(crate, rel, name):
    """What a definition names: the module and the name."""
    names, items = read(crate, rel)
    for part, bound in clauses(name, items[name][2]):
        for token in set(TOKEN.findall(part)):
            word, _, rest = token.partition('.')
            if word in names and names[word][1] is None:
                yield names[word][0], rest.split('.')[0]
            elif word in bound or not word:
                continue
            elif word in names:
                yield names[word]
            elif word in items and items[word] and word != name:
                yield f'Rattle.{crate}.specs.{rel}', word


def follow():
    while queue:
        crate, rel, name = queue.popleft()
        for path, target in named(crate, rel, name):
            go(path, target, f'{crate} {rel}')


def count():
    rows = [(place[c], c, rel, *reached[(c, rel, n)][:2], n) for c, rel, n in reached]
    return len(rows), sum(r[4] - r[3] + 1 for r in rows), len({(r[1], r[2]) for r in rows}), len({r[1] for r in rows}), len(types)


def rust(path, whole, part=None):
    """The names that the clauses of a Rust file, or of this part of it, import and name; with `whole` all that it imports for clauses."""
    text = open(path).read()
    names = {}
    for line in text.split('\n'):
        if line.startswith('ghost use '):
            names.update(imports(re.sub('^ghost ', '', line)))
    used = set()
    for clause in re.findall(r'(?:ensures|requires)(?: \w+)? \{(.*?)\n?\s*\}\s*(?=\n|;)', part or text, re.S):
        used |= set(TOKEN.findall(clause))
    for token in used:
        word, _, rest = token.partition('.')
        if word in names:
            module, name = names[word]
            go(module, rest.split('.')[0] if name is None else name, path)
    if whole:
        for module, name in names.values():
            if name:
                go(module, name, path)


def traits():
    """The traits of what the one public call is handed: name, file, the line of each ghost item, and the text."""
    bounds = re.search(r'pub fn qmail<(.*?)>\(', open('crates/qmail_top/src/top.rt').read(), re.S).group(1)
    asked = [w for w in dict.fromkeys(re.findall(r'\b[A-Z]\w+', bounds))]
    for crate in crates:
        for file in sorted(os.listdir(f'crates/{crate}/src')):
            path = f'crates/{crate}/src/{file}'
            if not os.path.isfile(path):
                continue
            lines = open(path).read().split('\n')
            for k, line in enumerate(lines):
                got = re.match(r'pub trait (\w+)', line)
                if got and got.group(1) in asked:
                    end = next(j for j in range(k, len(lines)) if lines[j] == '}')
                    yield got.group(1), path, [(g.group(1), j + 1) for j in range(k, end) for g in [re.match(r'    ghost (\w+):', lines[j])] if g], lines[k:end]


def reads(field):
    """Which definitions read what isn't followed, except to make the next state's."""
    return [k for k, item in reached.items() if re.search(r'\.' + field + r'\b', item[2]) and k not in PASS_ON]


told, promised, left = [], 0, {}
for title, crate, rel, name in [
    ('what is claimed after a history (`Safe`)', 'world_law', 'Headline', 'Safe'),
    ('the promise (`Promise`)', 'world_law', 'Headline', 'Promise'),
    ('the headline (`Headline`)', 'world_law', 'Headline', 'Headline'),
    ('what `play` prints (`PrintsSafely`)', 'qmail_top', 'SafePlays', 'PrintsSafely'),
]:
    go(f'Rattle.{crate}.specs.{rel}', name, 'root')
    follow()
    for field, (said, makers) in ASIDE.items():
        if makers & unfollowed and (reads(field) or name not in ('Safe', 'Promise')):
            unfollowed -= makers
            for maker in sorted(makers):
                go('.'.join(['Rattle', maker[0], 'specs', maker[1]]), maker[2], 'entered')
            follow()
        elif makers & unfollowed:
            left[field] = name
    told.append((title, *count()))
    if name == 'Promise':
        promised = told[-1][2]
    if name == 'Headline':
        headline = set(reached)
rust('crates/qmail_top/src/top.rt', True)
follow()
told.append(('each clause of `qmail`', *count()))
handed = list(traits())
for trait, path, items, part in handed:
    rust(path, False, '\n'.join(part))
follow()
told.append(('what `qmail` is handed: the clauses of the traits', *count()))
for title, paths in [
    ('what `settle` leads to (settle_law)', ['crates/settle_law/src/laws.rt']),
    ('threads (yard_lock, actor_runner)', ['crates/yard_lock/src/yard.rt', 'crates/yard_lock/src/laws.rt', 'crates/yard_lock/src/turn.rt', 'crates/actor_runner/src/run.rt']),
]:
    for path in paths:
        rust(path, False)
    follow()
    told.append((title, *count()))

def table(head, title):
    """The files that a table of the part above the line names, each as its crate and its file."""
    part = head.split(f'## {title}\n')[1].split('\n## ')[0]
    for crate, files in re.findall(r'(\w+) ((?:`specs/[\w/]+\.antt`(?:, )?)+)', part):
        for file in re.findall(r'specs/([\w/]+)\.antt', files):
            yield crate, file.replace('/', '.')


def lines_of(rows):
    return sum(r[1] - r[0] + 1 for r in rows)


old = open('docs/TRUST.md').read() if os.path.isfile('docs/TRUST.md') else '# What a sceptic reads\n\n'
head = old.split('<!-- counted -->')[0]
hour, skipped, wrong = set(table(head, 'In an hour')), set(table(head, 'What may be skipped at first')), []
files_reached = {(c, r) for c, r, n in reached}
wrong += [f'{c} {r} is named above the line, and no definition of it is reached' for c, r in sorted((hour | skipped) - files_reached)]
read_in_hour = [k for k in headline if k[:2] in hour]
aside = collections.defaultdict(list)
for key in read_in_hour:
    for path, name in named(*key):
        got = place_of(path, name)
        if got in headline and got[:2] not in hour and got[2] not in aside[got[:2]]:
            aside[got[:2]].append(got[2])
wrong += [f'{c} {r} stands in no table above the line, and the hour names of it: ' + ', '.join(sorted(n)) for (c, r), n in sorted(aside.items()) if (c, r) not in skipped and c not in SMALL]
hours = lines_of(reached[k] for k in read_in_hour)
wrong += [f'{what}: {n} lines, at most {most}' for what, n, most in [('the hour', hours, HOUR), ('the promise', promised, PROMISE)] if n > most]
out = [head + '<!-- counted -->\n', '## How much that is\n',
       f'The hour has {hours} lines, those of "In an hour" that the headline reaches; the promise as a whole has {promised}.\n',
       'Each row has what the rows above it have, and more. ' + ' '.join(f'{ASIDE[f][0]} is not counted in `{"` and `".join(["Safe", "Promise"][: ["Safe", "Promise"].index(n) + 1])}`: nothing there reads it.' for f, n in left.items()) + ' A line is a line of a definition with the comment over it.\n',
       '| What | Definitions | Lines | Files | Crates | Rust types |', '|---|---|---|---|---|---|']
out += ['| ' + ' | '.join(str(x) for x in row) + ' |' for row in told]
out += ['', '## What is handed in\n', 'What each trait says that a value of it tells, by the line of its `ghost` item and the first sentence over it.\n']
for trait, path, items, part in handed:
    text, told_of = open(path).read().split('\n'), []
    for n, k in items:
        first = k - 2
        while text[first - 1].strip().startswith('///'):
            first -= 1
        said = re.split(r'(?<=[a-z])[.;] ', ' '.join(t.strip()[4:] for t in text[first:k - 1]) + ' ')[0].rstrip('. ')
        told_of.append(f'`{n}`:{k} {said[0].lower()}{said[1:]}')
    if told_of:
        out.append(f'- `{trait}` ({path[len("crates/"):]}): ' + '; '.join(told_of))
files_told, rows = [], collections.OrderedDict()
for c, rel, n in sorted(reached, key=lambda r: (place[r[0]], r[1], reached[r][0])):
    rows.setdefault(c, collections.OrderedDict()).setdefault(rel, []).append((n, reached[(c, rel, n)]))
kinds = collections.defaultdict(list)
for c, t in sorted(types):
    kinds[c].append(t)
for c in sorted(set(rows) | set(kinds), key=lambda c: place[c]):
    named = ', types ' + ', '.join(kinds[c]) if kinds[c] else ''
    files_told.append(f'{c}{named}')
    for rel, items in rows.get(c, {}).items():
        lines = sum(i[1] - i[0] + 1 for _, i in items)
        files_told.append(f'  specs/{rel.replace(".", "/")}.antt ({lines}): ' + ', '.join(f'{n}:{i[0]}' for n, i in items))
if sys.argv[1] == 'files':
    print('\n'.join(files_told))
    sys.exit(0)
open('docs/TRUST.md', 'w').write('\n'.join(out) + '\n')
for text in wrong:
    print('TRUST.md:', text, file=sys.stderr)
for text, n in list(missing.most_common())[: int(sys.argv[1])]:
    print('not found:', text, file=sys.stderr)
for row in told:
    print(*row, sep='  ')
print(f'the hour {hours}, the promise {promised}')
sys.exit(1 if wrong else 0)
PYTHON
