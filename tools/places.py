# Counts the places of each point of docs/DESIGN-PASS.md in crates/*/src, and lists them with --list POINT. Usage: python3 tools/places.py [FOLDER] [--list POINT]
import collections
import glob
import re
import sys

KINDS = r'u8|u16|u32|u64|usize|f64|bool'


def functions(folder):
    """Each function of crates/*/src: file, line, name, parameters, clauses, body."""
    for path in sorted(glob.glob(folder + '/crates/*/src/*.rt')):
        text = re.sub(r'//[^\n]*', '', open(path).read())
        for found in re.finditer(r'^( *)(?:pub )?fn (\w+)[^\n]*(?:\n(?!\1\})[^\n]*)*\n\1\}', text, re.M):
            whole = found.group(0)
            head, _, body = whole.partition('\n' + found.group(1) + '{\n')
            if not body:
                head, _, body = whole.partition('{\n')
            given = re.search(r'fn \w+(?:<[^>]*>)?\((.*?)\)\s*(?:->|\n|requires|ensures|$|\{)', head + '\n', re.S)
            parameters = [p.strip() for p in re.split(r',(?![^(\[<]*[)\]>])', given.group(1))] if given else []
            clauses = re.findall(r'(?:requires|ensures)(?: \w+)? \{ (.*?) \}(?=\n|$)', head, re.S)
            line = text[:found.start()].count('\n') + 1
            yield path[len(folder) + 1:], line, found.group(2), [p for p in parameters if p], clauses, body


def shape(head, body):
    """A function with names, numbers and types taken away, by order of appearance."""
    names = {}
    def put(word):
        if re.fullmatch(KINDS, word):
            return 'T'
        if re.fullmatch(r'\d[\w.]*', word):
            return '0'
        if word in ('let', 'mut', 'if', 'else', 'for', 'while', 'in', 'return', 'match', 'as', 'len', 'Some', 'None', 'Ok', 'Err'):
            return word
        return names.setdefault(word, 'v%d' % len(names))
    return ' '.join(put(w) if re.match(r'\w', w) else w for w in re.findall(r'\w+|[^\w\s]', ' '.join(head) + ' { ' + body))


def main():
    folder = sys.argv[1] if len(sys.argv) > 1 and not sys.argv[1].startswith('-') else '.'
    wanted = sys.argv[sys.argv.index('--list') + 1] if '--list' in sys.argv else None
    places = collections.OrderedDict()
    sources = {p[len(folder) + 1:]: open(p).read().split('\n') for p in sorted(glob.glob(folder + '/crates/*/src/*.rt'))}
    def lines(name, pattern):
        places[name] = ['%s:%d %s' % (p, i + 1, l.strip()) for p, ls in sources.items() for i, l in enumerate(ls) if re.search(pattern, l)]
    lines('1 own enums', r'^(pub )?enum ')
    lines('1 refusals by number', r'Refused\(\d+,')
    lines('1 flags in structs', r'^    (pub )?\w+: bool,')
    every = list(functions(folder))
    groups = collections.defaultdict(list)
    for path, line, name, parameters, clauses, body in every:
        if '_try/' not in path and body.count('\n') >= 3:
            groups[shape(parameters, body)].append('%s:%d %s' % (path, line, name))
    places['2 functions of one shape'] = [' = '.join(g) for g in groups.values() if len(g) > 1]
    places['3 loops counted by hand'] = []
    for p, ls in sources.items():
        for i, l in enumerate(ls):
            found = re.match(r'^(\s*)while (.*) \{$', l)
            if found:
                end = next(j for j in range(i + 1, len(ls)) if ls[j] == found.group(1) + '}')
                words = re.findall(r'[a-z]\w*', found.group(2))
                if any(re.fullmatch(r'\s*%s [+-]= \w+;' % w, b) for w in words for b in ls[i + 1:end]):
                    places['3 loops counted by hand'].append('%s:%d %s' % (p, i + 1, l.strip()))
    lines('4 equality, order, conversion, printing by hand', r'fn (eq|cmp|compare|copy_of|clone|to_\w+|from_\w+|number|lesser|greater|least|put_number|put_digit|number_length)\b')
    facts = collections.Counter()
    where = collections.defaultdict(list)
    for path, line, name, parameters, clauses, body in every:
        for clause in clauses:
            facts[re.sub(r'\s+', ' ', clause)] += 1
            where[re.sub(r'\s+', ' ', clause)].append('%s:%d %s' % (path, line, name))
    places['5 facts in three contracts and more'] = ['%s (%s)' % (f, '; '.join(where[f])) for f, n in facts.items() if n > 2]
    together = collections.defaultdict(list)
    for path, line, name, parameters, clauses, body in every:
        if '_try/' not in path:
            for k in range(len(parameters)):
                for m in (4,):
                    if k + m <= len(parameters):
                        together[', '.join(parameters[k:k + m])].append('%s:%d %s' % (path, line, name))
    places['5 four parameters together in three functions and more'] = ['%s (%s)' % (t, '; '.join(w)) for t, w in together.items() if len(w) > 2]
    places['6 a slice with how many of it count, or where they begin'] = [
        '%s:%d %s' % (path, line, name) for path, line, name, parameters, clauses, body in every
        if '_try/' not in path and any(re.search(r'\[(u32|f64|u8|u64)\]', p) for p in parameters) and any(re.fullmatch(r'(n|m|f|from|to|at|count|begin|flags|marks|bins|column|sorted): usize', p) for p in parameters)]
    lines('7 steps chosen by a number or a flag', r'if (options|kind|directed|forward|single|mark)\b|options [&%/]|match kind')
    for name, found in places.items():
        if wanted is None:
            print('%5d  %s' % (len(found), name))
        elif name.startswith(wanted):
            print(name)
            for f in found:
                print('   ', f)


main()
