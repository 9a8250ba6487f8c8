"""Lists the places of src/ that the points of docs/DESIGN-PASS.md speak of, and counts them.

    python3 tools/places.py            the counts
    python3 tools/places.py POINT      the places of a point, 1 to 7

Works on the text of the sources, tests left out: a place is a line, or a function by the line of its name."""
import collections
import re
import subprocess
import sys

# Tests, and the crates that came when the pass was done.
LEFT_OUT = ('cases', 'shaping', 'shape')

FUNCTION = re.compile(r'fn (\w+)(?:<[^()]*>)?\(([^{]*?)\)((?:\s*->\s*[^{]*?)?)(?=\s*(?:requires|ensures|where|\{|;))', re.S)


def sources():
    names = subprocess.check_output(['git', 'ls-files', 'crates/*/src/*.rt'], text=True).split()
    return [(n, open(n).read()) for n in names if n.split('/')[1] not in LEFT_OUT]


def line_of(text, at):
    return text.count('\n', 0, at) + 1


def found(pattern, flags=re.M):
    for name, text in sources():
        for m in re.finditer(pattern, text, flags):
            yield f'{name}:{line_of(text, m.start())}: {" ".join(m.group(0).split())[:110]}'


def functions():
    """Each function with its head, its clauses and the line of its name."""
    for name, text in sources():
        for m in FUNCTION.finditer(text):
            rest = text[m.end():]
            clauses = []
            at = 0
            while True:
                c = re.match(r'\s*(requires|ensures)\*?(?: \w+)? \{', rest[at:])
                if not c:
                    break
                depth, end = 1, at + c.end()
                while depth:
                    depth += {'{': 1, '}': -1}.get(rest[end], 0)
                    end += 1
                clauses.append((c.group(1), ' '.join(rest[at + c.end():end - 1].split())))
                at = end
            yield name, line_of(text, m.start()), m.group(1), ' '.join(m.group(2).split()), m.group(3), clauses


def flags():
    written = set()
    for name, line, function, parameters, answer, _ in functions():
        if re.search(r'->\s*bool', answer) and '&mut' in parameters:
            written.add(function)
            yield f'{name}:{line}: fn {function} answers bool beside what it writes'
    yield from found(r'^\s*(?:None|Err\(_\)) => (?:return )?(?:None|false),')
    if written:
        asked = '|'.join(sorted(written))
        yield from found(r'if !(?:\w+\.)?(?:' + asked + r')\([^{;]*?\) \{\s*return (?:false|Err\([\w:]+\));')
    yield from found(r'^#\[derive[^\n]*\n(?:pub )?enum \w+ \{[^}]*\b(?:Refused|Broken|Stuck)\b[^}]*\}')
    yield from found(r'^    closed: bool,')
    yield from found(r'_code: u32\b|\bcode == 0|order: u32\b')
    yield from found(r'^\s*let (?:Some|Ok|Err)\([^=]*\) =[^;{]*else \{(?:\s*//[^\n]*)*\s*return (?:Err|None|false)[^;]*;')
    yield from found(r'^\s*(?:None|Some\([^)]*\)|Err\([^_)]*\)) => (?:return )?Err\([^,]*\)(?:,|;)')
    yield from found(r'\bif [^{};]*\{\s*Some\([^{};]*\)\s*\} else \{\s*None\s*\}')
    yield from found(r'^\s*\[\] => [^,]*,')
    yield from found(r'\bif let (?:Some|Ok|Err)\([^=]*\) = [^{]*\{(?:\s*//[^\n]*)*\s*return (?:Err|None|false)[^;]*;')


def twins():
    by_shape = collections.defaultdict(list)
    for name, text in sources():
        for m in re.finditer(r'\n( *)(?:pub(?:\(\w+\))? )?fn (\w+)', text):
            body = re.search(r'\n' + m.group(1) + r'\{\n(.*?)\n' + m.group(1) + r'\}', text[m.end():], re.S)
            if body and body.group(1).count('\n') >= 2 and not re.search(r'\bfn \w', text[m.end():m.end() + body.start()]):
                shape = re.sub(r'\.rev\(\)|\b[A-Z]\w*\b|\b\w+\b(?=\()|\d+', '_', ' '.join(body.group(1).split()))
                shape = re.sub(r'\b(?!for\b|if\b|let\b|return\b|match\b|while\b)\w+\b', '_', shape)
                by_shape[shape].append(f'{name}:{line_of(text, m.start() + 1)}: fn {m.group(2)}')
    for places in by_shape.values():
        if len(places) > 1:
            yield from places
    yield from same_named()
    yield from found(r'^pub struct Place \{|Monomial \{\s*x1: 0,\s*x2: 0,\s*x3: 0,\s*x4: 0,')


def body_of(text, at):
    """What stands between the braces of the function whose head ends there, its clauses left out."""
    rest = text[at:]
    m = re.search(r'\n( *)\{\n(.*?)\n\1\}|\{\n(.*?)\n *\}', rest, re.S)
    return ' '.join((m.group(2) or m.group(3) or '').split()) if m else ''


def same_named():
    """Functions and constants that two crates have under one name and in one shape, but for what only calls that name."""
    by_name = collections.defaultdict(list)
    for name, text in sources():
        crate = name.split('/')[1]
        traits = [(m.start(), text.find('\n}', m.end()))
                  for m in re.finditer(r'^(?:impl\b[^{]* for [^{]*|pub trait [^{]*)\{(?!\})', text, re.M)]
        for m in FUNCTION.finditer(text):
            body = body_of(text, m.end())
            if not any(a <= m.start() < b for a, b in traits) and f'.{m.group(1)}(' not in body:
                parameters = re.sub(r': [^,]*', '', ' '.join(m.group(2).split())).strip(', ')
                shape = re.sub(r'\b\w+\b', '_', body)
                by_name[f'fn {m.group(1)}({parameters})', shape].append((crate, f'{name}:{line_of(text, m.start())}'))
        for m in re.finditer(r'^(?:pub(?:\(\w+\))? )?const (\w+):[^;]*;', text, re.M):
            by_name[f'const {m.group(1)}', ' '.join(m.group(0).split())].append((crate, f'{name}:{line_of(text, m.start())}'))
    for (what, _), places in sorted(by_name.items()):
        if len({crate for crate, _ in places}) > 1 and not what.startswith('fn main('):
            yield from (f'{place}: {what}' for _, place in places)


def loops():
    yield from found(r'^\s*while (?!let)[^{]*')
    yield from found(r'^\s*for \w+ in (?:\()?[^{]*\.\.[^{]*')
    yield from found(r'\(\w+\.\.=?[^()]*(?:\([^()]*\))?\)\s*\.(?:rev\(\)\s*\.)?(?:all|any|find|position|fold|map)\((?:[^|;]*)\|[^|]*?&?(\w+)\|[^;]*?(?:\[[^\];]*\b\1\b|polynomial\(\1\))')
    for name, text in sources():
        for m in re.finditer(r'^( *)for \((\w+), [^{]*enumerate\(\)[^{]*\{\n(.*?)\n\1\}', text, re.M | re.S):
            if re.search(r'\[[^\]\n]*\b' + m.group(2) + r'\b[^\]\n]*\][\w.]* [-+^]?= |\([^()\n]*\b' + m.group(2) + r'\b', m.group(3)):
                yield f'{name}:{line_of(text, m.start())}: {" ".join(m.group(0).split())[:110]}'


def hand_written():
    yield from found(r'\bas (?:u8|u16|u32|u64|usize)\b(?!\.)')
    yield from found(r'^impl<?.*> ?(?:Clone|Copy|PartialEq|Eq|Ord|PartialOrd|Debug) for .*')
    yield from found(r'fn (?:same|same_words|is_one|in_range|one_to_four)\b.*')
    yield from found(r'fault\.(?:number|layer|place|line)\(\);|\(fault\.\w+\(\), .*\)')


def repeated():
    facts = collections.defaultdict(set)
    lists = {}
    for name, line, function, parameters, _, clauses in functions():
        where = f'{name}:{line}: fn {function}'
        for kind, text in clauses:
            for part in re.split(r' × ', text):
                facts[kind, re.sub(r'\b(?:self|entry)\.|\.entry\b', '', part.strip('() ').replace('.old', '.now').replace('.new', '.now'))].add(where)
        lists[where] = frozenset(re.findall(r'(\w+): (?:&|usize|u32|Place)', parameters))
    # A definition is said once, and what a call leaves as it was is its own.
    for (kind, fact), places in sorted(facts.items()):
        named = kind == 'ensures' and re.match(r'[A-Z]\w* [^→×≡]*$', fact)
        own = re.search(r'([\w.]+)\.now ≡ \1\.now', fact) or re.search(r'(\w+)\.now\.(\w+) ≡ \1\.now\.\2', fact)
        if len(places) >= 3 and (kind == 'requires' or len(fact) > 25) and not named and not own:
            yield f'{len(places)} contracts {"require" if kind == "requires" else "ensure"}: {fact}'
    groups = {a & b for a in lists.values() for b in lists.values()} | set(lists.values())
    for group in sorted(groups, key=sorted):
        places = sum(group <= names for names in lists.values())
        if len(group) >= 3 and places >= 4:
            yield f'{places} functions take: {", ".join(sorted(group))}'


def buffers():
    for name, line, function, parameters, answer, _ in functions():
        if re.search(r'\[(?:Monomial|Term|u32|u8|usize)\]', parameters) and re.search(r'\b(?:count|d|size): usize', parameters):
            yield f'{name}:{line}: fn {function} takes words and how many of them count'
    yield from found(r'^    (?:count|size): usize,\n(?:    .*\n)*?    \w+: \[.*')
    yield from found(r'^    (?:pub(?:\(\w+\))? )?\w+: \[.*; \w+\],\n    (?:pub(?:\(\w+\))? )?\w+: \[.*; \w+\],')


def switches():
    yield from found(r'^\s*match question \{')
    yield from found(r'^pub enum Question \{')


POINTS = {1: flags, 2: twins, 3: loops, 4: hand_written, 5: repeated, 6: buffers, 7: switches}


def places_of(point):
    """The places of a point, each once."""
    places = {}
    for place in POINTS[point]():
        where = re.match(r'crates/\S+:\d+:', place)
        places.setdefault(where.group(0) if where else place, place)
    return places.values()


def main():
    if len(sys.argv) > 1:
        print('\n'.join(places_of(int(sys.argv[1]))))
    else:
        for point in POINTS:
            print(f'{point}: {len(places_of(point))}')


main()
