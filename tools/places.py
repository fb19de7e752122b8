"""Lists the places that docs/DESIGN-PASS.md counts, point by point, in the src/ of every crate (point 8: in proofs/).

Usage: python3 tools/places.py [FOLDER] [-v]      FOLDER is a checkout, this one where it is not given; -v lists each place.
"""
import collections
import pathlib
import re
import sys

root = pathlib.Path(next((a for a in sys.argv[1:] if not a.startswith('-')), '.'))
verbose = '-v' in sys.argv

KEYWORDS = set('fn pub crate mut let if else while for in loop match return self Self struct enum impl use mod as ref true false const'.split())


def functions(text):
    """Each function: its name, parameters, result, clauses and body, and its line."""
    for m in re.finditer(r'\bfn (\w+)(<[^(]*>)?\(', text):
        i = m.end()
        depth = 1
        while depth:
            depth += {'(': 1, ')': -1}.get(text[i], 0)
            i += 1
        params = text[m.end():i - 1]
        j = i
        # clauses stand in braces behind requires or ensures; the body is the first other brace
        while text[j] != '{' or re.search(r'(requires|ensures)( \w+)? $', text[i:j]):
            if text[j] == ';' and not re.search(r'\[[^\[\]]*$', text[i:j]):
                break
            if text[j] == '{':
                depth = 1
                while depth:
                    j += 1
                    depth += {'{': 1, '}': -1}.get(text[j], 0)
            j += 1
        if text[j] == ';':
            continue
        head = text[i:j]
        k = j + 1
        depth = 1
        while depth:
            depth += {'{': 1, '}': -1}.get(text[k], 0)
            k += 1
        yield m.group(1), params, head, text[j + 1:k - 1], text.count('\n', 0, m.start()) + 1


def shape(code):
    """Code with its names, numbers and strings made alike."""
    words = re.findall(r"b?\"[^\"]*\"|\w+|[^\w\s]", re.sub(r'//[^\n]*', '', code))
    return tuple(w if not re.match(r'[\w"]', w) or w in KEYWORDS else 'x' for w in words)


found = collections.defaultdict(list)
crates = sorted(p for p in (root / 'crates').iterdir() if (p / 'src').is_dir())
shapes = collections.defaultdict(list)
types = collections.defaultdict(list)
for crate in crates:
    facts = collections.defaultdict(set)
    groups = collections.defaultdict(set)
    for path in sorted((crate / 'src').rglob('*.rt')):
        name = str(path.relative_to(root))
        text = path.read_text()
        lines = text.split('\n')
        for m in re.finditer(r'^(?:pub(?:\(crate\))? )?enum (\w+)[^{]*\{(.*?)^\}', text, re.S | re.M):
            body = re.sub(r'//[^\n]*', '', m.group(2))
            variants = [v.strip() for v in re.split(r',\s*\n', body) if v.strip()]
            names = {re.match(r'\w+', v).group() for v in variants}
            if any('(' in v for v in variants) or names & {'Unreadable', 'Unknown', 'Bad'}:
                found[1].append(f'{name}:{text.count(chr(10), 0, m.start()) + 1}: enum {m.group(1)}: {", ".join(variants)}')
        for m in re.finditer(r'^(?:pub(?:\(crate\))? )?struct (\w+)[^{;]*\{(.*?)^\}', text, re.S | re.M):
            fields = re.findall(r'^\s*(?:pub(?:\(crate\))? )?(\w+): ([^\n]*),$', re.sub(r'ghost [^\n]*', '', m.group(2)), re.M)
            line = text.count(chr(10), 0, m.start()) + 1
            if any(t == 'bool' for _, t in fields) and len(fields) > 1:
                found[1].append(f'{name}:{line}: struct {m.group(1)}: a flag beside values')
            if len(fields) > 1:
                types[tuple(re.sub(r'\w+', 'x', t) for _, t in fields)].append((crate.name, name, line, m.group(1), tuple(n for n, _ in fields)))
        for fn, params, head, body, line in functions(text):
            where = f'{name}:{line}: fn {fn}'
            if re.search(r'-> u8|-> usize', head) and re.search(r'=> \d+,', body) and 'match self' in body:
                found[1].append(where + ': a number for each case')
            s = shape(body)
            if len(s) >= 24:
                shapes[s].append(where)
            for m in re.finditer(r'^\s*while\b[^\n]*', body, re.M):
                found[3].append(where + ': ' + m.group().strip())
            one = re.sub(r'//[^\n]*', '', body).strip()
            if re.fullmatch(r'\w+ as \w+', one) or re.fullmatch(r'if (\w+) <= (\w+) \{ \1 \} else \{ \2 \}', one):
                found[4].append(where + ': ' + one)
            elif re.fullmatch(r'match \w+ \{[^{}]*\}', one) and re.search(r"b'[0-9a-zA-Z]'\.\.=", one):
                found[4].append(where + ': digits by hand')
            elif 'while' in body and re.search(r'\[i\] != \w+\[i\]', body):
                found[4].append(where + ': equality by hand')
            for m in re.finditer(r'requires(?: \w+)? \{(.*?)\}\s*\n', head + '\n', re.S):
                for fact in m.group(1).split('×'):
                    fact = re.sub(r'\.(now|old|new)\b', '', fact).strip()
                    facts[fact.strip('() ')].add(where)
            names = [p.strip() for p in re.split(r',(?![^<\[(]*[>\])])', params) if ':' in p]
            for size in (3, 4, 5):
                for i in range(len(names) - size + 1):
                    groups[tuple(names[i:i + size])].add(where)
            if re.search(r'\w+: &mut \[u8\], (at|size|n|count): usize', params) and '-> usize' in head:
                found[6].append(where + ': a buffer and the place in it')
            if re.search(r'\b(form|checks|salted|claims|wish): bool', params):
                found[7].append(where + ': a step chosen by a word')
            elif re.search(r'\bcall: Call\b', params):
                found[7].append(where + ': a step chosen by a kind')
    for fact, where in sorted(facts.items()):
        if len(where) >= 3:
            found[5].append(f'{crate.name}: {fact}: required by {len(where)} functions')
    kept = [g for g, w in groups.items() if len(w) >= 3]
    for g in kept:
        if not any(set(g) < set(h) and groups[h] >= groups[g] for h in kept if h != g):
            found[5].append(f'{crate.name}: ({", ".join(g)}) travel together in {len(groups[g])} functions')
for s, where in sorted(shapes.items(), key=lambda x: x[1]):
    if len(where) > 1:
        found[2].append(' = '.join(where))
for t, where in sorted(types.items()):
    by_fields = collections.defaultdict(list)
    for crate_name, name, line, struct, fields in where:
        by_fields[fields].append(f'{name}:{line}: struct {struct}')
    for fields, group in by_fields.items():
        if len(group) > 1:
            found[2].append(' = '.join(group))
answers = 0
for path in (root / 'crates').glob('*/proofs/**/Answers.antt'):
    answers += len(re.findall(r'^(?:abbrev )?pub [\w-]+ : goal\.', path.read_text(), re.M))
lines = sum(len(p.read_text().split('\n')) - 1 for p in (root / 'crates').glob('*/proofs/**/*.antt'))

for point in range(1, 8):
    print(f'point {point}: {len(found[point])}')
    if verbose:
        for place in found[point]:
            print('   ', place)
print(f'point 8: {answers} answers, {lines} lines of proofs/')
