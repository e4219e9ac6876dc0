#!/usr/bin/env python3
"""Reckons by itself what `idltool diff` tells of two listings, over `idltool json`; and apart from that, what programs that are built
from the two say to each other, unrolled to a depth.

  model.py OLD.json NEW.json                what changes, a row on a line
  model.py --kinds KINDS.tsv IDLTOOL        each line of the table: TITLE, OLD, NEW, ROWS, with tabs between; says where the rows of
                                            `idltool diff` or of this program aren't those, or `speaks` says otherwise
  model.py --edits IDLTOOL FILE [OPTION..]  random edits of FILE: both tell the same, and no row has `wire` where `speaks` isn't kept
  model.py --random IDLTOOL SEED PAIRS      random listings and random changes of them, likewise"""
import collections, copy, json, os, random, re, subprocess, sys, tempfile

ALL = ('wire', 'client', 'servant')
SOURCE = ('client', 'servant')
CALLED = ('operation', 'attribute')
SENT = ('interface', 'struct', 'union', 'enum', 'exception')


def name_of(e):
    return e['path'].rsplit('::', 1)[-1]


def scope_of(e):
    return e['path'].rsplit('::', 1)[0] if '::' in e['path'] else ''


class Listing:
    """Entries by their places; those of several FILEs one after another, each that stands at one place once."""

    def __init__(self, entries):
        self.entries, seen = [], set()
        for e in entries:
            key = json.dumps({k: v for k, v in e.items() if k != 'main'}, sort_keys=True)
            if key not in seen:
                seen.add(key)
                self.entries.append(e)
        self.of_id, self.of_path, self.inside, self.number = {}, {}, {}, []
        for n, e in enumerate(self.entries):
            same = [] if e['kind'] in CALLED else self.of_id.setdefault(e['id'], [])
            self.number.append(len(same))
            same.append(n)
            self.of_path.setdefault(e['path'], n)
            if e['kind'] in CALLED:
                self.inside.setdefault(scope_of(e), []).append(n)

    def at(self, reference):
        return self.of_path.get(reference['path'])

    def kind_at(self, n):
        return None if n is None else self.entries[n]['kind']

    def peel(self, t):
        """The layers of a type, the outermost first, and what is within."""
        layers = []
        while t.get('kind') in ('tk_sequence', 'tk_array'):
            layers += [('s', t['bound'])] if t['kind'] == 'tk_sequence' else [('a', n) for n in t['lengths']]
            t = t['element']
        return layers, t

    def plain(self, t):
        """The same without aliases."""
        layers, x = self.peel(t)
        while 'ref' in x and self.kind_at(self.at(x)) == 'alias':
            more, x = self.peel(self.entries[self.at(x)]['type']['type'])
            layers = layers + more
        return layers, x

    def inherits(self, n):
        """An interface, and all that its bases lead to."""
        out, todo = [], [n]
        while todo:
            n = todo.pop()
            if n is None or n in out or self.kind_at(n) != 'interface':
                continue
            out.append(n)
            todo += [self.at(b) for b in self.entries[n].get('bases', [])]
        return out

    def ancestors(self, n):
        return sorted(self.inherits(n)[1:], reverse=True)

    def offers(self, n):
        """What can be called on it, by name."""
        return {name_of(self.entries[k]): k for i in self.inherits(n) for k in self.inside.get(self.entries[i]['path'], [])}

    def label(self, discriminator, text):
        """A label as it goes over the wire."""
        n = self.at(self.plain(discriminator)[1]) if 'ref' in self.plain(discriminator)[1] else None
        names = self.entries[n]['type']['members'] if self.kind_at(n) == 'enum' else []
        return names.index(text) if text in names else text


WORDS = dict(tk_longlong='long long', tk_ulong='unsigned long', tk_ushort='unsigned short', tk_ulonglong='unsigned long long',
             tk_longdouble='long double', tk_objref='Object')


def spelled(t):
    k = t.get('kind', '')
    if 'ref' in t:
        return t['path']
    if k == 'tk_sequence':
        return 'sequence<%s%s>' % (spelled(t['element']), ', %d' % t['bound'] if t['bound'] else '')
    if k == 'tk_array':
        return spelled(t['element']) + ''.join('[%d]' % n for n in t['lengths'])
    if k in ('tk_string', 'tk_wstring'):
        return k[3:] + ('<%d>' % t['bound'] if t['bound'] else '')
    return WORDS.get(k, k[3:])


def yes(b):
    return 'yes' if b else 'no'


class Diff:
    def __init__(self, old, new):
        self.old, self.new, self.rows = old, new, []
        self.partner, self.back = {}, {}
        for i, e in enumerate(old.entries):
            if e['kind'] not in CALLED:
                for k in new.of_id.get(e['id'], []):
                    if new.number[k] == old.number[i]:
                        self.join(i, k)
        for i, e in enumerate(old.entries):
            k = new.of_path.get(e['path'])
            if i not in self.partner and e['kind'] not in CALLED and k is not None and k not in self.back and new.entries[k]['kind'] == e['kind']:
                self.join(i, k)
        for i, e in enumerate(old.entries):
            if e['kind'] in CALLED:
                p = self.partner.get(old.of_path.get(scope_of(e)))
                k = None if p is None else new.offers(p).get(name_of(e))
                if k is not None:
                    self.join(i, k)

    def join(self, i, k):
        self.partner[i] = k
        self.back[k] = i

    def same_reference(self, r, s):
        i, k = self.old.at(r), self.new.at(s)
        return i is not None and k is not None and self.partner.get(i) == k

    def same_element(self, x, y):
        return self.same_reference(x, y) if 'ref' in x and 'ref' in y else x == y

    def same(self, t, u, peel):
        (a, x), (b, y) = peel(self.old, t), peel(self.new, u)
        return a == b and self.same_element(x, y)

    def written(self, t, u):
        return self.same(t, u, Listing.peel)

    def sent(self, t, u):
        return self.written(t, u) or self.same(t, u, Listing.plain)

    def row(self, weights, e, text, place=None):
        self.rows.append((tuple(weights), e, text, place or e))

    def types(self, e, part, t, u):
        if not self.written(t, u):
            w = ALL if not self.sent(t, u) else SOURCE if self.old.plain(t)[0] else ('names',)
            self.row(w, e, '%s, %s -> %s' % (part, spelled(t), spelled(u)))

    def lists(self, e, word, xs, ys, weights, names, both=lambda n, x, y: None, name=lambda x: x['name'], more=ALL):
        a, b = [name(x) for x in xs], [name(y) for y in ys]
        pair = {i: b.index(n) for i, n in enumerate(a) if n in b}
        if len(a) == len(b):
            pair.update({i: i for i in range(len(a)) if a[i] not in b and b[i] not in a})
        for i, x in enumerate(xs):
            if i not in pair:
                self.row(weights, e, '%s %s is gone' % (word, a[i]))
                continue
            if a[i] != b[pair[i]]:
                self.row(names, e, 'name of %s %d, %s -> %s' % (word, i + 1, a[i], b[pair[i]]))
            both(a[i], x, ys[pair[i]])
        for k in range(len(b)):
            if k not in pair.values():
                self.row(more, e, '%s %s is new, number %d' % (word, b[k], k + 1))
        order = [pair[i] for i in range(len(a)) if i in pair]
        if order != sorted(order):
            self.row(more, e, 'order of %ss, %s -> %s' % (word, ' '.join(a), ' '.join(b)))

    def sets(self, e, part, xs, ys, gone, new):
        for x in xs:
            if not any(self.same_reference(x, y) for y in ys):
                self.row(gone, e, '%s %s is gone' % (part, x['path']))
        for y in ys:
            if not any(self.same_reference(x, y) for x in xs):
                self.row(new, e, '%s %s is new' % (part, y['path']))

    def selected(self, L, t):
        labels = {L.label(t['discriminator'], c['label']): c for c in t['cases'] if 'label' in c}
        return labels, next((c for c in t['cases'] if 'label' not in c), None)

    def selection(self, e, says, x, y, gone, new):
        if x is None and y is not None:
            self.row(new, e, says + ' is new')
        elif x is not None and y is None:
            self.row(gone, e, says + ' is gone')
        elif x is not None:
            self.types(e, 'type of ' + says, x['type'], y['type'])
            if x['name'] != y['name']:
                self.row(SOURCE, e, 'name of %s, %s -> %s' % (says, x['name'], y['name']))

    def unions(self, e, t, u):
        self.types(e, 'discriminator', t['discriminator'], u['discriminator'])
        (a, da), (b, db) = self.selected(self.old, t), self.selected(self.new, u)
        for l in list(a) + [l for l in b if l not in a]:
            self.selection(e, 'case ' + (a.get(l) or b.get(l))['label'], a.get(l, da), b.get(l, db), ALL, ('wire',))
        self.selection(e, 'default', da, db, ALL, ('wire',))

    def interfaces(self, e, f, i, k):
        a, b = self.old.ancestors(i), self.new.ancestors(k)
        for n in a:
            if self.partner.get(n) not in b:
                self.row(('wire', 'client'), e, 'base %s is gone' % self.old.entries[n]['path'])
        for n in b:
            if n not in [self.partner.get(m) for m in a]:
                brings = set(self.new.offers(n)) - set(self.old.offers(i))
                self.row(('servant',) if brings else ('new',), e, 'base %s is new' % self.new.entries[n]['path'])

    def bodies(self, e, f, i, k):
        kind = e['kind']
        if kind != f['kind']:
            return self.row(ALL, e, 'kind, %s -> %s' % (kind, f['kind']))
        member = lambda n, x, y: self.types(e, 'type of member ' + n, x['type'], y['type'])
        if kind == 'interface':
            was, now = ('local' in x['type']['kind'] for x in (e, f))
            if was != now:
                return self.row(ALL, e, 'local, %s -> %s' % (yes(was), yes(now)))
            self.interfaces(e, f, i, k)
        elif kind in ('struct', 'exception'):
            a, b = e.get('bases', []), f.get('bases', [])
            if len(a) != len(b) or not all(map(self.same_reference, a, b)):
                self.row(ALL, e, 'base, %s -> %s' % tuple(' '.join(r['path'] for r in x) or 'none' for x in (a, b)))
            self.lists(e, 'member', e['type']['members'], f['type']['members'], ALL, SOURCE, member)
        elif kind == 'enum':
            self.lists(e, 'enumerator', e['type']['members'], f['type']['members'], ALL, SOURCE, name=lambda x: x, more=('wire',))
        elif kind == 'union':
            self.unions(e, e['type'], f['type'])
        elif kind == 'alias':
            self.types(e, 'type', e['type']['type'], f['type']['type'])
        elif kind == 'const':
            if not self.written(e['type'], f['type']):
                w = ('names',) if self.sent(e['type'], f['type']) else SOURCE
                self.row(w, e, 'type, %s -> %s' % (spelled(e['type']), spelled(f['type'])))
            if e.get('value') != f.get('value'):
                self.row(SOURCE, e, 'value, %s -> %s' % (e.get('value', ''), f.get('value', '')))
        elif kind == 'attribute':
            self.types(e, 'type', e['type'], f['type'])
            if e['readonly'] != f['readonly']:
                self.row(('servant',) if e['readonly'] else ('wire', 'client'), e, 'readonly, %s -> %s' % (yes(e['readonly']), yes(f['readonly'])))
            self.sets(e, 'exception of get', e['get'], f['get'], SOURCE, ('wire', 'client'))
            if not e['readonly'] and not f['readonly']:
                self.sets(e, 'exception of set', e['set'], f['set'], SOURCE, ('wire', 'client'))
        elif kind == 'operation':
            self.operations(e, f)

    def operations(self, e, f):
        def both(n, x, y):
            if x['direction'] != y['direction']:
                self.row(ALL, e, 'direction of parameter %s, %s -> %s' % (n, x['direction'], y['direction']))
            self.types(e, 'type of parameter ' + n, x['type'], y['type'])
        self.types(e, 'type', e['type'], f['type'])
        self.lists(e, 'parameter', e['parameters'], f['parameters'], ALL, ('names',), both)
        if e['oneway'] != f['oneway']:
            self.row(('wire',), e, 'oneway, %s -> %s' % (yes(e['oneway']), yes(f['oneway'])))
        self.sets(e, 'exception', e['raises'], f['raises'], SOURCE, ('wire', 'client'))
        if e['context'] != f['context']:
            self.row(ALL, e, 'context, %s -> %s' % (' '.join(e['context']) or 'none', ' '.join(f['context']) or 'none'))

    def is_local(self, e):
        o = self.old.of_path.get(scope_of(e)) if e['kind'] in CALLED else None
        return o is not None and 'local' in self.old.entries[o].get('type', {}).get('kind', '')

    def run(self):
        for i, e in enumerate(self.old.entries):
            start, k = len(self.rows), self.partner.get(i)
            if k is None and e['kind'] in CALLED:
                if self.partner.get(self.old.of_path.get(scope_of(e))) is not None:
                    self.row(('wire', 'client'), e, 'is gone')
            elif k is None:
                self.row(ALL if e['kind'] in SENT else SOURCE, e, 'is gone')
            else:
                f = self.new.entries[k]
                if e['id'] != f['id']:
                    self.row(('wire',) if e['kind'] in SENT else ('names',), e, 'id, %s -> %s' % (e['id'], f['id']))
                if e['path'] != f['path'] and e['kind'] not in CALLED:
                    self.row(SOURCE, e, 'path, %s -> %s' % (e['path'], f['path']))
                self.bodies(e, f, i, k)
                self.rows[start:] = [(w, x, t, f) for w, x, t, _ in self.rows[start:]]
            if self.is_local(e):
                self.rows[start:] = [(tuple(w for w in ws if w != 'wire') or SOURCE, *r) for ws, *r in self.rows[start:]]
        for k, f in enumerate(self.new.entries):
            if f['kind'] in CALLED:
                p = self.back.get(self.new.of_path.get(scope_of(f)))
                if p is not None and name_of(f) not in self.old.offers(p):
                    self.row(('servant',), f, 'is new')
            elif k not in self.back:
                self.row(('new',), f, 'is new')
        return self.rows


def text(row):
    w, e, t, p = row
    grade = 'error' if 'wire' in w or 'client' in w else 'note'
    place = '%s:%s' % (p['file'], p['line']) + (':%s' % p['column'] if 'column' in p else '')
    return '%s: %s: %s' % (place, grade, said(row))


def said(row):
    w, e, t, p = row
    return '%s %s: %s [%s]' % (e['kind'], e['path'], t, ','.join(w))


# ---- apart from all that: what a program that is built from a listing sends and takes, to a depth

def layout(L, t, n):
    layers, x = L.plain(t)
    if n == 0:
        return '..'
    within = value(L, L.at(x), n - 1) if 'ref' in x and L.at(x) is not None else json.dumps(x, sort_keys=True)
    return tuple(layers), within


def value(L, k, n):
    e = L.entries[k]
    t = e.get('type', {})
    if e['kind'] in ('struct', 'exception'):
        return 'members', e['id'], tuple(value(L, L.at(b), n) for b in e.get('bases', [])), tuple(layout(L, m['type'], n) for m in t['members'])
    if e['kind'] == 'enum':
        return 'enum', e['id'], len(t['members'])
    if e['kind'] == 'union':
        labelled = {L.label(t['discriminator'], c['label']): layout(L, c['type'], n) for c in t['cases'] if 'label' in c}
        default = next((layout(L, c['type'], n) for c in t['cases'] if 'label' not in c), None)
        chosen = sorted(((str(l), v) for l, v in labelled.items() if v != default), key=str)
        return 'union', e['id'], layout(L, t['discriminator'], n), tuple(chosen), default
    return (t['kind'], e['id']) if e['kind'] == 'interface' else e['kind']


def requests(L, k, n):
    e = L.entries[k]
    raised = lambda xs: frozenset(value(L, L.at(x), n) for x in xs)
    if e['kind'] == 'operation':
        passed = tuple((p['direction'], layout(L, p['type'], n)) for p in e['parameters'])
        return {name_of(e): (e['oneway'], layout(L, e['type'], n), passed, tuple(e['context']), raised(e['raises']))}
    t, void = layout(L, e['type'], n), layout(L, {'kind': 'tk_void'}, n)
    out = {'_get_' + name_of(e): (False, t, (), (), raised(e['get']))}
    if not e['readonly']:
        out['_set_' + name_of(e)] = (False, void, (('in', t),), (), raised(e['set']))
    return out


def speaks(old, new, depth=7):
    """What a program of OLD says that one of NEW takes otherwise."""
    bad = []
    for i, e in enumerate(old.entries):
        if e['kind'] not in SENT:
            continue
        k = next((k for k in new.of_id.get(e['id'], []) if new.number[k] == old.number[i]), None)
        if k is None:
            bad.append((e['id'], 'gone'))
            continue
        if value(old, i, depth) != value(new, k, depth):
            bad.append((e['id'], 'layout'))
            continue
        if e['kind'] != 'interface' or 'local' in e['type']['kind']:
            continue
        if not {old.entries[b]['id'] for b in old.inherits(i)} <= {new.entries[b]['id'] for b in new.inherits(k)}:
            bad.append((e['id'], 'base'))
        mine = {n: r for o in old.offers(i).values() for n, r in requests(old, o, depth).items()}
        yours = {n: r for o in new.offers(k).values() for n, r in requests(new, o, depth).items()}
        for n, r in mine.items():
            if n not in yours or yours[n][:4] != r[:4] or not yours[n][4] <= r[4]:
                bad.append((e['id'], n))
    return bad


def sees(old, new):
    """What a client of OLD can name and NEW hasn't, and what a servant of NEW has to have and OLD's hasn't."""
    there = {e['path']: e['kind'] for e in new.entries}
    partner, client, servant = Diff(old, new).partner, [], []
    for i, e in enumerate(old.entries):
        if e['kind'] not in CALLED and there.get(e['path']) != e['kind']:
            client.append(e['path'])
        if e['kind'] == 'interface' and new.kind_at(partner.get(i)) == 'interface':
            a, b = set(old.offers(i)), set(new.offers(partner[i]))
            client += sorted(a - b)
            servant += sorted(b - a)
    return client, servant


# ---- against the program

def listing(tool, files, options=(), cwd=None):
    r = subprocess.run([tool, 'json', *options, *files], capture_output=True, cwd=cwd)
    return None if r.returncode else Listing([e for l in r.stdout.decode().splitlines() for e in json.loads(l)['listing']])


def told(tool, old, new, options=(), cwd=None):
    """The rows of the program without their places, and its status."""
    r = subprocess.run([tool, 'diff', *options, old, new], capture_output=True, cwd=cwd)
    lines = [re.sub(r'^.*?: (error|note): ', '', l) for l in r.stdout.decode().splitlines()]
    return lines, r.returncode


def judged(title, old, new, rows, lines=None, status=None):
    """How often the two, or a theorem, don't agree."""
    bad, here = 0, [said(r) for r in rows]
    if lines is not None and (lines != here or status != any('wire' in r[0] or 'client' in r[0] for r in rows)):
        bad += 1
        print('%s\n  diff  %s, status %s\n  model %s' % (title, ' | '.join(lines), status, ' | '.join(here)))
    for weight, lost in zip(ALL, (speaks(old, new), *sees(old, new))):
        if lost and not any(weight in r[0] for r in rows):
            bad += 1
            print('%s: no row has %s, but %s' % (title, weight, lost[:3]))
    return bad


def kinds(table, tool):
    bad = count = careful = 0
    with tempfile.TemporaryDirectory() as d:
        for line in open(table, encoding='utf-8'):
            if line.startswith('#') or not line.strip():
                continue
            title, *texts, want = line.rstrip('\n').split('\t')
            for name, t in zip(('old.idl', 'new.idl'), texts):
                open(d + '/' + name, 'w').write(t.replace('\\n', '\n') + '\n')
            old, new = (listing(tool, [n], cwd=d) for n in ('old.idl', 'new.idl'))
            rows = Diff(old, new).run()
            lines, status = told(tool, 'old.idl', 'new.idl', cwd=d)
            bad += judged(title, old, new, rows, lines, status)
            if ' | '.join(lines) != want:
                bad += 1
                print('%s\n  is   %s\n  want %s' % (title, ' | '.join(lines), want))
            careful += any('wire' in r[0] for r in rows) and not speaks(old, new)
            count += 1
    print('%d kinds of change, %d told with care, %d wrong' % (count, careful, bad))
    return bad


EDITED = ['long', 'short', 'string', 'boolean', 'in ', 'out ', 'inout ', 'octet', 'readonly attribute', 'attribute', 'unsigned long', 'double',
          'raises']


def edited(rnd, lines):
    lines = list(lines)
    for _ in range(rnd.randint(1, 3)):
        i, j, o = rnd.randrange(len(lines)), rnd.randrange(len(lines)), rnd.randrange(10)
        l = lines[i]
        if o == 0:
            l = ''
        elif o == 1:
            l = l.replace(rnd.choice(EDITED), rnd.choice(EDITED), 1)
        elif o == 2:
            l = re.sub(r'\b([a-z]\w*)(\s*[,;)])', r'\1_q\2', l, count=1)
        elif o == 3:
            l, lines[j] = lines[j], l
        elif o == 4:
            l = re.sub(r'\b(\d+)\b', '7', l, count=1)
        elif o == 5:
            l = re.sub(r'\(\s*(in [^,()]*),\s*(in [^,()]*)', r'(\2, \1', l, count=1)
        elif o == 6:
            l = re.sub(r'^(\s*)(\w+ \w+;)', r'\1\2 long zz%d;' % rnd.randrange(99), l, count=1)
        elif o == 7:
            l = re.sub(r'typedef (\w+) (\w+);', r'typedef \1 \2_x; typedef \2_x \2;', l, count=1)
        elif o == 8:
            l = re.sub(r'^(\s*)(\w+)(,?)\s*$', r'\1zz%d, \2\3' % rnd.randrange(99), l, count=1)
        else:
            l = re.sub(r'\braises\s*\(([^,()]*),?', 'raises (', l, count=1)
        lines[i] = l
    return lines


def edits(tool, file, options, count=20, seed=1):
    rnd, old = random.Random(seed), listing(tool, [file], options)
    if old is None:
        print('%s has errors' % file)
        return 0
    lines, here = open(file, encoding='latin-1').read().split('\n'), os.path.dirname(os.path.abspath(file))
    n = wire = 0
    bad = bool(Diff(old, old).run()) + bool(told(tool, file, file, options)[0])
    with tempfile.TemporaryDirectory() as d:
        changed = d + '/' + os.path.basename(file)
        for _ in range(count):
            open(changed, 'w', encoding='latin-1').write('\n'.join(edited(rnd, lines)))
            new = listing(tool, [changed], [*options, '-I', here])
            if new is None:
                continue
            rows = Diff(old, new).run()
            bad += judged(file, old, new, rows, *told(tool, file, changed, [*options, '-I', here]))
            n, wire = n + 1, wire + any('wire' in r[0] for r in rows)
    print('%s: %d edits, %d with a row on the wire, %d wrong' % (file, n, wire, bad))
    return bad


class Made:
    """A random listing."""
    BASIC = ['long', 'short', 'string', 'string<4>', 'boolean', 'octet', 'any', 'Object']

    def __init__(self, rnd):
        self.rnd, self.all = rnd, []
        for i in range(rnd.randint(4, 10)):
            self.all.append(self.one(i))

    def named(self, *kinds):
        return [d['n'] for d in self.all if d['k'] in kinds]

    def type(self, before=None):
        ts = self.named('alias', 'struct', 'union', 'enum', 'iface') if before is None else \
            [d['n'] for d in self.all[:before] if d['k'] in ('alias', 'struct', 'union', 'enum', 'iface')]
        t = self.rnd.choice(ts) if ts and self.rnd.random() < .6 else self.rnd.choice(self.BASIC)
        return t if self.rnd.random() < .8 else 'sequence<%s%s>' % (t, self.rnd.choice(['', ',2']))

    def call(self, n):
        raised, rnd = self.named('exc'), self.rnd
        return dict(n=n, r=rnd.choice(['void', self.type()]), p=[[rnd.choice(['in', 'out', 'inout']), 'p%d' % j, self.type()] for j in range(rnd.randint(0, 2))],
                    x=rnd.sample(raised, min(len(raised), rnd.randint(0, 2))), a=rnd.random() < .3, ro=rnd.random() < .5)

    def one(self, i):
        rnd = self.rnd
        k = rnd.choice(['alias', 'alias', 'struct', 'struct', 'union', 'enum', 'iface', 'iface', 'iface', 'exc', 'const'])
        d = dict(k=k, n='%s%d' % (k.upper(), i), pin=None)
        if k == 'alias':
            d['t'], d['a'] = self.type(), rnd.choice(['', '', '[2]', '[3][2]'])
        elif k in ('struct', 'exc'):
            d['m'] = [['m%d' % j, self.type()] for j in range(rnd.randint(1, 3))]
        elif k == 'enum':
            d['e'] = ['%s_%s' % (d['n'], c) for c in 'abc'[:rnd.randint(1, 3)]]
        elif k == 'union':
            en = [x for x in self.all if x['k'] == 'enum']
            d['d'] = rnd.choice(en)['n'] if en and rnd.random() < .5 else 'long'
            ls = next((x['e'] for x in self.all if x['n'] == d['d']), ['1', '2', '3'])
            d['c'] = [[l, 'c%d' % j, self.type()] for j, l in enumerate(ls)]
            if d['d'] == 'long' and rnd.random() < .4:
                d['c'].append([None, 'dd', self.type()])
        elif k == 'iface':
            bs = self.named('iface')
            d['b'] = rnd.sample(bs, min(len(bs), rnd.randint(0, 2)))
            d['o'] = [self.call('%s_f%d' % (d['n'], j)) for j in range(rnd.randint(0, 3))]
            d['l'], d['h'] = False, rnd.random() < .4
        else:
            d['v'] = rnd.randint(1, 3)
        return d

    def changed(self):
        other = copy.copy(self)
        other.all = copy.deepcopy(self.all)
        for _ in range(self.rnd.randint(1, 4)):
            if other.all:
                other.change()
        return other

    def change(self):
        rnd, D = self.rnd, self.all
        i = rnd.randrange(len(D))
        d, o = D[i], rnd.randrange(17)
        ifs = [x for x in D if x['k'] == 'iface']
        if o == 0:
            del D[i]
        elif o == 1:
            was, now = d['n'], d['n'] + 'r'
            pin = (d['pin'] or 'IDL:%s:1.0' % was) if rnd.random() < .6 else d['pin']
            D[:] = json.loads(re.sub(r'\b%s\b' % was, now, json.dumps(D)))
            D[i]['pin'] = pin
        elif o == 2 and len(ifs) > 1:
            a, b = rnd.sample(ifs, 2)
            if a['o']:
                b['o'].append(a['o'].pop(rnd.randrange(len(a['o']))))
        elif o == 3 and d['k'] == 'iface':
            bs = [x['n'] for x in D[:i] if x['k'] == 'iface']
            d['b'] = rnd.sample(bs, min(len(bs), rnd.randint(0, 2)))
        elif o == 4 and d.get('m'):
            rnd.choice(d['m'])[1] = self.type(i)
        elif o == 5 and 'm' in d:
            rnd.shuffle(d['m'])
        elif o == 6 and 'm' in d:
            d['m'].insert(rnd.randint(0, len(d['m'])), ['n%d' % rnd.randrange(9), self.type(i)])
        elif o == 7 and 'e' in d:
            rnd.shuffle(d['e']) if rnd.random() < .5 else d['e'].append(d['n'] + '_z')
        elif o == 8 and 'c' in d:
            rnd.shuffle(d['c']) if rnd.random() < .5 else d['c'].pop()
        elif o == 9:
            t, n = self.type(i), 'NEW%d' % rnd.randrange(99)
            rest = json.loads(re.sub(r'"%s"' % re.escape(t), '"%s"' % n, json.dumps(D[i:]), count=rnd.randint(1, 3)))
            D[i:] = [dict(k='alias', n=n, t=t, a='', pin=None)] + rest
        elif o == 10 and d['k'] == 'alias':
            d['t'] = self.type(i)
        elif o == 11 and d.get('o'):
            c, q = rnd.choice(d['o']), rnd.randrange(5)
            if q == 0:
                c['n'] += 'x'
                c['pin'] = rnd.choice([None, 'IDL:%s/%s:1.0' % (d['n'], c['n'][:-1])])
            elif q == 1:
                rnd.shuffle(c['p'])
            elif q == 2:
                c['x'] = c['x'][1:]
            elif q == 3:
                c['ro'] = not c['ro']
            else:
                c['r'] = self.type(i)
        elif o == 12:
            d['pin'] = 'IDL:q%d:1.0' % rnd.randrange(10 ** 6)
        elif o == 13 and d['k'] == 'iface':
            d['l'] = not d['l']
        elif o == 14 and d['k'] == 'iface':
            d['o'].append(self.call('g%d' % rnd.randrange(99)))
        elif o == 15 and len(D) > 1:
            j = rnd.randrange(len(D))
            D[i], D[j] = D[j], D[i]
        elif o == 16 and d['k'] == 'iface':
            d['h'] = not d['h']

    def text(self):
        """Some interfaces are declared ahead of all, and so of their bases."""
        ahead = [self.headed(d) + ';' for d in self.all if d.get('h')]
        return '\n'.join(ahead + [l for d in self.all for l in self.shown(d)]) + '\n'

    def headed(self, d):
        return '%sinterface %s' % ('local ' if d['l'] else '', d['n'])

    def signature(self, o):
        x = ' raises(%s)' % ','.join(o['x']) if o['x'] else ''
        if o['a']:
            t = o['r'] if o['r'] != 'void' else 'long'
            return '%sattribute %s %s%s;' % ('readonly ' if o['ro'] else '', t, o['n'], x if o['ro'] else x.replace('raises', 'getraises'))
        return '%s %s(%s)%s;' % (o['r'], o['n'], ','.join(' '.join([p[0], p[2], p[1]]) for p in o['p']), x)

    def shown(self, d):
        k, n = d['k'], d['n']
        if k == 'alias':
            yield 'typedef %s %s%s;' % (d['t'], n, d['a'])
        elif k in ('struct', 'exc'):
            yield '%s %s{%s};' % ('struct' if k == 'struct' else 'exception', n, ''.join('%s %s;' % (t, m) for m, t in d['m']))
        elif k == 'enum':
            yield 'enum %s{%s};' % (n, ','.join(d['e']))
        elif k == 'union':
            cases = ''.join('%s %s %s;' % ('default:' if l is None else 'case %s:' % l, t, m) for l, m, t in d['c'])
            yield 'union %s switch(%s){%s};' % (n, d['d'], cases)
        elif k == 'iface':
            yield '%s%s{%s};' % (self.headed(d), ':' + ','.join(d['b']) if d['b'] else '', ''.join(map(self.signature, d['o'])))
        else:
            yield 'const long %s=%d;' % (n, d['v'])
        if d['pin']:
            yield '#pragma ID %s "%s"' % (n, d['pin'])
        for o in d.get('o', []):
            if o.get('pin'):
                yield '#pragma ID %s::%s "%s"' % (n, o['n'], o['pin'])


def pairs(tool, seed, wanted):
    rnd, count = random.Random(seed), collections.Counter()
    with tempfile.TemporaryDirectory() as d:
        while count['pairs'] < wanted:
            made = Made(rnd)
            open(d + '/old.idl', 'w').write(made.text())
            old = listing(tool, ['old.idl'], cwd=d)
            if old is None:
                continue
            count['wrong'] += bool(Diff(old, old).run()) + bool(told(tool, 'old.idl', 'old.idl', cwd=d)[0])
            for _ in range(6):
                open(d + '/new.idl', 'w').write(made.changed().text())
                new = listing(tool, ['new.idl'], cwd=d)
                if new is None:
                    continue
                rows = Diff(old, new).run()
                count['wrong'] += judged('pair %d of %d' % (count['pairs'], seed), old, new, rows, *told(tool, 'old.idl', 'new.idl', cwd=d))
                count['pairs'] += 1
                count['on the wire'] += any('wire' in r[0] for r in rows)
    print('%(pairs)d pairs, %(on the wire)d with a row on the wire, %(wrong)d wrong' % count)
    return count['wrong']


if __name__ == '__main__':
    a = sys.argv[1:]
    if len(a) < 2:
        sys.exit(__doc__)
    if a[0] == '--kinds':
        sys.exit(bool(kinds(a[1], a[2])))
    if a[0] == '--edits':
        sys.exit(bool(edits(a[1], a[2], a[3:])))
    if a[0] == '--random':
        sys.exit(bool(pairs(a[1], int(a[2]), int(a[3]))))
    for r in Diff(*(Listing([e for l in open(f, encoding='utf-8') for e in json.loads(l)['listing']]) for f in a)).run():
        print(text(r))
