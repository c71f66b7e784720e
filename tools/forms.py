"""Counts the places of docs/DESIGN-PASS.md in the sources: `python3 tools/forms.py [--list] [FOLDER]`.

One line a point: how many places, and with --list each of them. Points 2 and 5 compare functions; the others look for
lines. A place that stays bears its reason: `--list` shows the comment above it, or above what it stands in."""
import collections
import pathlib
import re
import sys

FAILS = r'^\s*(Refused|Fault|Bad|BadLine|Nothing|Unknown|InUse|Full)\b'
LINES = {
    '1 flag beside a value': r'^\s*(pub )?\w+: bool,$|\bwrite: bool\b|\bconst [A-Z_]+: bool\b',
    '1 number for a kind or a refusal': r'^(pub )?const [A-Z_]+: u(8|16) =|-> u8$|\b(number|outcome|kind|refusal|behaviour|state|used'
    r'|held|sent|msg_type|shape): (u8|u16|usize)\b',
    '3 counted loop': r'\bwhile\b',
    '4 equality, copy or conversion by hand': r'fn (are_equal|are_same|is_same|is_verb|wide|join\w*|to_signed|to_unsigned|state_number'
    r'|state_of|used_number|timing_of|of|of_\w+|greater|number_of|outcome_of|\w+_as)\('
    r'|fn (state|used|number|timing)\(&?self\)',
    '6 buffer with a length beside': r'\bout: &mut \[u8\],( at: usize|$)|\b(begun|waiting|octets|count|next): usize\b|\[Subscription; 40\]',
    '7 switch on which step to run': r": &?('\w+ )?(mut )?(Event|Sought|ListenerSought|Waits)\b[,)]"
    r'|match (&mut |&)?(self\.)?(stage|verb)\b|matches!\((self\.)?stage\b',
}
SWITCH = '7 switch on which step to run'
STEPS = r'^impl (Event|Sought|ListenerSought|Waits|Stage) \{\n(.*?)^\}'


FUNCTION = re.compile(
    r'^( *)(?:pub )?(?:const )?(?:extern "C" )?fn (\w+)'
    r'(?:([^{}]*?) \{\n|((?:(?!;\n).)*?)^\1\{\n)'  # without clauses the body begins behind the signature
    r'(.*?)^\1\}', re.M | re.S)


def functions(text):
    """Each function: its name, its header, its body and the line that it begins in."""
    for found in FUNCTION.finditer(text):
        yield found.group(2), found.group(3) or found.group(4), found.group(5), line_of(text, found.start())


def line_of(text, place):
    return text.count('\n', 0, place) + 1


def reason(rows, number):
    """The comment above a line, or above the function, the type or the impl that the line stands in."""
    above = number - 1
    while above > 0 and rows[above - 1].strip() and not rows[above - 1].lstrip().startswith('//'):
        above -= 1
    if not above or not rows[above - 1].strip():
        above = number - 1
        while above > 0 and rows[above][:1].strip() == '':
            above -= 1
        while above > 0 and rows[above - 1].startswith('#['):
            above -= 1
    said = []
    while above > 0 and rows[above - 1].lstrip().startswith('//'):
        said.insert(0, rows[above - 1].strip())
        above -= 1
    return said


def shape(body):
    """A body with its names, numbers and strings taken out."""
    body = re.sub(r'//.*', '', body)
    body = re.sub(r'b?"[^"]*"|\b\d\w*\b', '0', body)
    return re.sub(r'\s+', ' ', re.sub(r'\b(?!if\b|else\b|match\b|return\b|let\b|while\b|for\b|in\b|mut\b)[A-Za-z_]\w*', 'x', body))


def clauses(header):
    for found in re.finditer(r'requires\s*\w*\s*\{(.*?)\}\s*$', header, re.M | re.S):
        yield re.sub(r'\s+', ' ', found.group(1)).strip()


def parameters(header):
    inside = header[header.find('(') + 1:].split(') ->')[0].split('\n    requires')[0].split('\n    ensures')[0]
    found = re.findall(r'(\w+): (&?(?:\'a )?(?:mut )?[\[\]\w; ]+)', inside)
    return [(name, kind.strip()) for name, kind in found if name != 'self']


def main():
    arguments = [a for a in sys.argv[1:] if a != '--list']
    listing = '--list' in sys.argv
    root = pathlib.Path(arguments[0] if arguments else '.')
    places = collections.OrderedDict((name, []) for name in ['1 own Option or Result', *LINES])
    facts, together = [], []
    shapes = collections.defaultdict(list)
    for crate in sorted(root.glob('crates/*')):
        required, pairs = collections.Counter(), collections.Counter()
        for path in sorted(crate.glob('src/**/*.rt')):
            text = path.read_text()
            where = path.relative_to(root)
            rows = text.split('\n')

            def add(name, number, said):
                places[name].append(([f'{where}:{number}: {said}'], reason(rows, number)))

            for number, row in enumerate(rows, 1):
                for name, pattern in LINES.items():
                    if not row.lstrip().startswith('//') and re.search(pattern, row):
                        add(name, number, row.strip())
            for found in re.finditer(r'^(?:pub )?enum (\w+) \{\n(.*?)^\}', text, re.M | re.S):
                if re.search(FAILS, found.group(2), re.M):
                    add('1 own Option or Result', line_of(text, found.start()), f'enum {found.group(1)}')
            for found in re.finditer(STEPS, text, re.M | re.S):
                for method in re.finditer(r'fn (\w+)\(&?(?:mut )?self', found.group(2)):
                    add(SWITCH, line_of(text, found.start(2) + method.start()), f'{found.group(1)}::{method.group(1)}')
            for name, header, body, number in functions(text):
                # a body of one line is like many: there the header has to be alike too
                key = shape(body) if body.count('\n') >= 2 else shape(header + body)
                shapes[key].append((f'{where}:{number}: {name}', reason(rows, number)))
                required.update(set(clauses(header)))
                held = parameters(header)
                pairs.update({(a, b) for i, a in enumerate(held) for b in held[i + 1:]})
        facts += [f'{crate.name}: {n} times {c}' for c, n in required.items() if n >= 3]
        together += [f'{crate.name}: {n} times {a[0]}: {a[1]}, {b[0]}: {b[1]}' for (a, b), n in pairs.items() if n >= 3]
    places['2 functions alike but for names and numbers'] = [
        ([place for place, _ in alike], [line for _, said in alike for line in said])
        for alike in shapes.values() if len(alike) > 1]
    places['5 fact required by three functions or more'] = [([fact], []) for fact in facts]
    places['5 two parameters together in three functions or more'] = [([pair], []) for pair in together]
    answers = list(root.glob('crates/*/proofs/**/Answers.antt'))
    lines = sum(len(p.read_text().split('\n')) for p in root.glob('crates/*/proofs/**/*.antt'))
    for name in sorted(places):
        print(f'{len(places[name]):4} {name}')
        if listing:
            for place, said in places[name]:
                print(f'       {", ".join(place)}')
                for line in said:
                    print(f'           {line}')
    print(f'{len(answers):4} 8 files of answers; {lines} lines of proofs')


main()
