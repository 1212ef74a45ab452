#!/usr/bin/env python3
"""The rows of `folder_rows` and what they must print, from the rules alone: it shares nothing with the program.

Its words: the crashes, each as PARTITIONS,FIRST,SECOND with the picks of both, and the folder for `stdin` and `stdout`. The stored
ones are made by `python3 bench/folder_model.py "1,0,2 1,1,0 2,2,1 4,1,2" crates/folder_rows`."""
import functools, sys

# ---- the wire format
def varint(n):
    out = bytearray()
    while n >= 128:
        out.append(n % 128 + 128); n //= 128
    out.append(n)
    return bytes(out)
def num(f, n, always=False): return varint(8 * f) + varint(n) if n or always else b''
def msg(f, b): return varint(8 * f + 2) + varint(len(b)) + b
def raw(f, b): return msg(f, b) if b else b''
def txt(f, s): return raw(f, s.encode())

# ---- messages
def address(a): return txt(1, a[0]) + txt(2, a[1]) + txt(3, a[2])
def value(typename, has, b): return txt(1, typename) + num(2, int(has)) + raw(3, b)
def sender(s): return num(1, s, True) if isinstance(s, int) else msg(2, address(s))
def letter(s, target, arg): return msg(1, sender(s)) + msg(2, address(target)) + msg(3, arg)
def egress(s, ns, name, arg): return msg(1, address(s)) + txt(2, ns) + txt(3, name) + msg(4, arg)
def delay(s, due, target, token, arg): return msg(1, address(s)) + num(2, due) + msg(3, address(target)) + txt(4, token) + msg(5, arg)
def cell(name, typename, mode, millis, has, stamp, b): return txt(1, name) + txt(2, typename) + num(3, mode) + num(4, millis) + num(5, int(has)) + num(6, stamp) + raw(7, b)
def state(a, seen, cells): return msg(1, address(a)) + num(2, seen) + b''.join(msg(3, c) for c in cells)
def call(leg, partition, turn): return num(1, leg) + num(2, partition) + num(3, turn)
def reply(c, a, moment, picks, answer): return msg(1, c) + msg(2, address(a)) + num(3, moment) + b''.join(msg(4, sender(p)) for p in picks) + raw(5, answer)
def entry(leg, stamp, node, step): return num(1, leg) + num(2, stamp) + num(3, node) + step
def take_step(split): return num(10, split, True)
def batch_step(r): return msg(11, r)
def register_step(r): return msg(12, r)
def due_step(a, moment): return msg(13, msg(1, address(a)) + num(2, moment))
def lists(f, items): return b''.join(msg(f, i) for i in items)
def piece(partition, entries=(), egresses=(), letters=(), states=(), delays=()):
    return num(1, partition) + lists(2, entries) + lists(3, egresses) + lists(4, letters) + lists(5, states) + lists(6, delays)
def feedback(letters): return lists(1, letters)
def job_block(version, text): return msg(1, num(1, version) + txt(2, text))
def opening(leg): return msg(2, num(1, leg))
def complete(number, leg, moment, taken, takes, places):
    return msg(3, num(1, number) + num(2, leg) + num(3, moment) + lists(4, [num(1, t) for t in taken]) + lists(5, takes)
               + lists(6, [num(1, a) + num(2, b) for a, b in places]))

# ---- partitions
def partition_of(a, partitions):
    h = 14695981039346656037
    for byte in address(a):
        h = (h ^ byte) * 1099511628211 % 2 ** 64
    return h % 128 * partitions // 128


# ---- reading messages
class Bad(Exception): pass

def read_varint(b, i):
    n = 0
    for k in range(10):
        if i >= len(b): raise Bad
        n |= (b[i] & 127) << 7 * k
        i += 1
        if b[i - 1] < 128:
            if n >= 2 ** 64: raise Bad
            return n, i
    raise Bad

def records(b):
    i, out = 0, []
    while i < len(b):
        tag, i = read_varint(b, i)
        f, w = tag >> 3, tag & 7
        if f == 0: raise Bad
        if w == 0: v, i = read_varint(b, i)
        elif w == 2:
            n, i = read_varint(b, i)
            if i + n > len(b): raise Bad
            v = b[i:i + n]; i += n
        elif w in (1, 5):
            n = 8 if w == 1 else 4
            if i + n > len(b): raise Bad
            v = b[i:i + n]; i += n
        else: raise Bad
        out.append((f, w, v))
    return out

def table(bytes_, **rows):
    """rows: name = (field, wire, reader, many)"""
    got = {name: ([] if r[3] else None) for name, r in rows.items()}
    for f, w, v in records(bytes_):
        for name, (field, wire, reader, many) in rows.items():
            if (f, w) == (field, wire):
                x = reader(v)
                if many: got[name].append(x)
                else: got[name] = x
    return got

def short(v):
    if v >= 2 ** 32: raise Bad
    return v
def text(v):
    try: return v.decode()
    except UnicodeDecodeError: raise Bad
def need(x):
    if x is None: raise Bad
    return x
def N(f): return (f, 0, lambda v: v, False)
def S(f): return (f, 0, short, False)
def T(f): return (f, 2, text, False)
def B(f): return (f, 2, bytes, False)
def M(f, r): return (f, 2, r, False)
def L(f, r): return (f, 2, r, True)

def r_address(b):
    g = table(b, a=T(1), b=T(2), c=T(3))
    return (g['a'] or '', g['b'] or '', g['c'] or '')
def r_value(b): table(b, a=T(1), b=N(2), c=B(3)); return b
def r_sender(b):
    g = table(b, a=S(1), b=M(2, r_address))
    if g['a'] is None and g['b'] is None: raise Bad
    return True
def r_letter(b):
    g = table(b, s=M(1, r_sender), t=M(2, r_address), v=M(3, r_value))
    need(g['s']); need(g['v'])
    return need(g['t'])
def r_egress(b):
    g = table(b, s=M(1, r_address), n=T(2), m=T(3), v=M(4, r_value))
    need(g['v'])
    return need(g['s'])
def r_delay(b):
    g = table(b, s=M(1, r_address), d=N(2), t=M(3, r_address), k=T(4), v=M(5, r_value))
    need(g['t']); need(g['v'])
    return need(g['s'])
def r_reply(b):
    g = table(b, c=M(1, bytes), a=M(2, r_address), m=N(3), p=L(4, r_sender), x=B(5))
    need(g['c'])
    return need(g['a'])
def r_due(b): return need(table(b, a=M(1, r_address), m=N(2))['a'])
def r_entry(b):
    step = None
    leg = stamp = node = 0
    for f, w, v in records(b):
        if (f, w) == (1, 0): leg = v
        elif (f, w) == (2, 0): stamp = v
        elif (f, w) == (3, 0): node = short(v)
        elif (f, w) == (10, 0): step = ('take', short(v))
        elif (f, w) == (11, 2): step = ('batch', r_reply(v))
        elif (f, w) == (12, 2): step = ('register', r_reply(v))
        elif (f, w) == (13, 2): step = ('due', r_due(v))
    return ((leg, stamp, node), need(step), b)
def signed(v):
    v &= 2 ** 32 - 1
    return v - 2 ** 32 if v >= 2 ** 31 else v
def r_cell(b):
    g = table(b, n=T(1), t=T(2), m=N(3), l=N(4), h=N(5), s=N(6), v=B(7))
    return {'name': g['n'] or '', 'mode': signed(g['m'] or 0), 'stamp': g['s'] or 0, 'size': len(g['v'] or b'')}
def r_state(b):
    g = table(b, a=M(1, r_address), s=N(2), c=L(3, r_cell))
    return {'address': need(g['a']), 'seen': g['s'] or 0, 'cells': g['c']}
def r_piece(b):
    g = table(b, p=S(1), e=L(2, r_entry), g=L(3, r_egress), l=L(4, r_letter), s=L(5, r_state), d=L(6, r_delay))
    g['p'] = g['p'] or 0
    return g
def r_feedback(b): return table(b, l=L(1, r_letter))['l']
def r_job(b):
    g = table(b, v=S(1), t=T(2))
    return (g['v'] or 0, g['t'] or '')
def r_complete(b):
    g = table(b, n=N(1), l=N(2), m=N(3), t=L(4, lambda v: table(v, c=N(1))['c'] or 0), e=L(5, r_entry),
              p=L(6, lambda v: tuple(x or 0 for x in table(v, a=N(1), b=N(2)).values())))
    return {'number': g['n'] or 0, 'leg': g['l'] or 0, 'moment': g['m'] or 0, 'taken': g['t'], 'takes': g['e'], 'places': g['p']}
def r_manifest(b):
    found = None
    for f, w, v in records(b):
        if (f, w) == (1, 2): found = ('job', r_job(v))
        elif (f, w) == (2, 2): found = ('opening', table(v, l=N(1))['l'] or 0)
        elif (f, w) == (3, 2): found = ('complete', r_complete(v))
    return need(found)
def spelled(reader, b):
    try: return reader(b)
    except Bad: return None

# ---- what may stand in a folder
def number_up_to(most, word):
    if not word or any(c not in '0123456789' for c in word) or word[0] == '0': return None
    return int(word) if 1 <= int(word) <= most else None
def shape_in(t):
    lines = t.split('\n')
    words = lines[0].split(' ')
    if len(words) != 2 or words[0] != 'partitions': return None
    p = number_up_to(16, words[1])
    if p is None: return None
    splits = 0
    for line in lines:
        words = line.split(' ')
        if words[0] == 'ingress' and len(words) > 2: splits += number_up_to(32, words[2]) or 0
    return (p, splits)

def piece_ok(g, partitions, partition, moment):
    own = lambda a: partition_of(a, partitions) == partition
    if g['p'] != partition: return False
    for key, (kind, what), _ in g['e']:
        if kind == 'take' or not own(what): return False
    if not all(own(a) for a in g['g'] + g['l'] + g['d']): return False
    before = None
    for s in g['s']:
        if not own(s['address']): return False
        names = [c['name'] for c in s['cells']]
        if len(names) > 64 or len(set(names)) != len(names): return False
        if any(not 0 <= c['mode'] <= 2 or c['size'] > 1048576 for c in s['cells']): return False
        if max([s['seen']] + [c['stamp'] for c in s['cells']]) > moment: return False
        if before is not None and before >= address(s['address']): return False
        before = address(s['address'])
    return True

# ---- the disk: what reads give, and what each pick of a crash leaves
class Stopped(Exception): pass
FILES = 19
class Disk:
    def __init__(self, files=None, stop=None):
        self.seen = list(files) if files else [b''] * FILES
        self.synced = list(self.seen)
        self.filled = list(self.seen)
        self.calls, self.stop = 0, stop
    def enter(self):
        if self.stop is not None and self.calls >= self.stop: raise Stopped
        self.calls += 1
    def len(self, f): self.enter(); return len(self.seen[f])
    def read(self, f, at, n):
        self.enter()
        assert at + n <= len(self.seen[f])
        return self.seen[f][at:at + n]
    def write(self, f, at, b):
        self.enter()
        assert at <= len(self.seen[f])
        put = lambda old, new: old[:at] + new + old[at + len(new):]
        self.seen[f] = put(self.seen[f], b)
        if at <= len(self.filled[f]): self.filled[f] = put(self.filled[f], b'\xa5' * len(b))
    def sync(self, f):
        self.enter()
        self.synced[f] = self.filled[f] = self.seen[f]
    def crash(self, pick): return tuple((self.synced, self.seen, self.filled)[pick])

# ---- logs
class NoLog(Exception): pass
class Log:
    def __init__(self, disk, f):
        self.disk, self.f, self.blocks, self.end = disk, f, [], 0
        disk.sync(f)
        n = disk.len(f)
        if n < 10:
            if n == 0 or disk.read(f, 0, 1) != b'\0':
                disk.write(f, 0, b'\0'); disk.sync(f)
            return
        at = 0
        while True:
            if n - at < 10:
                if disk.read(f, at, 1) == b'\0': break
                raise NoLog(f, at)
            head = disk.read(f, at, 9)
            if head[0] == 0: break
            size = int.from_bytes(head[1:], 'big')
            if size + 10 > n - at: raise NoLog(f, at)
            self.blocks.append(at)
            at += 9 + size
        self.end = at
    def append(self, body):
        gate = self.end
        self.disk.write(self.f, gate + 1, len(body).to_bytes(8, 'big') + body + b'\0'); self.disk.sync(self.f)
        self.disk.write(self.f, gate, b'\1'); self.disk.sync(self.f)
        self.blocks.append(gate)
        self.end = gate + 9 + len(body)
        return gate
    def block(self, at):
        size = int.from_bytes(self.disk.read(self.f, at, 9)[1:], 'big')
        return self.disk.read(self.f, at + 9, size)

# ---- stores
class Refused(Exception): pass
class Store:
    def __init__(self, disk, job):
        """job: a text, or None to open the folder as it is"""
        self.disk = disk
        try:
            self.manifest = Log(disk, 0)
            self.logs = [Log(disk, 2 + p) for p in range(16)]
        except NoLog as e: raise Refused('not a store %d %d' % e.args)
        if not self.manifest.blocks:
            if job is None: raise Refused('no job')
            self.manifest.append(job_block(1, job))
            kept = job
        else:
            first = spelled(r_manifest, self.manifest.block(0))
            if not first or first[0] != 'job' or first[1][0] != 1: raise Refused('not a store 0 0')
            kept = first[1][1]
            if job is not None and kept != job: raise Refused('other')
        shape = shape_in(kept)
        if shape is None: raise Refused('not a store 0 0')
        self.partitions, self.splits = shape
        self.leg, self.completes = 0, []
        for at in self.manifest.blocks[1:]:
            said = spelled(r_manifest, self.manifest.block(at))
            if not said or said[0] == 'job': raise Refused('not a store 0 %d' % at)
            if said[0] == 'opening': self.leg = max(self.leg, said[1]); continue
            c = said[1]
            if (c['number'] != len(self.completes) + 1 or c['number'] > c['leg'] or len(c['taken']) != self.splits
                    or len(c['places']) != self.partitions or any(e[1][0] != 'take' for e in c['takes'])):
                raise Refused('not a store 0 %d' % at)
            entries = [e[2] for e in c['takes']]
            keys = [e[0] for e in c['takes']]
            for p, (a, b) in enumerate(c['places']):
                log = self.logs[p]
                piece_there = spelled(r_piece, log.block(a)) if a in log.blocks else None
                if not piece_there or not piece_ok(piece_there, self.partitions, p, c['moment']):
                    raise Refused('not a store %d %d' % (2 + p, a))
                letters = spelled(r_feedback, log.block(b)) if b in log.blocks else None
                if letters is None or any(partition_of(t, self.partitions) != p for t in letters):
                    raise Refused('not a store %d %d' % (2 + p, b))
                entries += [e[2] for e in piece_there['e']]
                keys += [e[0] for e in piece_there['e']]
            self.completes.append((c, entries))
            self.leg = max(self.leg, c['leg'])
    def says(self): return 'ok newest %d leg %d' % (len(self.completes), self.leg)
    def entries(self): return sum(len(e) for _, e in self.completes)

def answer(files, job):
    try: return Store(Disk(files), job).says()
    except Refused as e: return e.args[0]

# ---- what the rows put
IDS = 'ecab'
def job_text(p): return 'partitions %d\ningress a/b 2 io.statefun.types/string c/d\n' % p
def at(partitions, partition): return ('c', 'd', IDS[partition * 4 // partitions])
for P in (1, 2, 4):
    for p in range(P): assert partition_of(at(P, p), P) == p
LEG, MOMENT, LIMIT = {1: 3, 2: 9}, {1: 10, 2: 20}, {1: 5, 2: 8}
def digit(n): return b'%d' % n
def val(n): return value('t/v', True, digit(n))
def take_entry(n): return entry(LEG[n], 1, 0, take_step(0))
def batch_entry(P, p, n):
    return entry(LEG[n], 20 - p, 2 + p, batch_step(reply(call(LEG[n], p, 0), at(P, p), MOMENT[n], [0], digit(n))))
def egress_put(P, p, n): return egress(at(P, p), 'c', 'e', val(n))
def state_put(a, n): return state(a, MOMENT[n], [cell('n', 't/v', 1, 1000, True, MOMENT[n], digit(n))])
def piece_put(P, p, n):
    a = at(P, p)
    return piece(p, [batch_entry(P, p, n)], [egress_put(P, p, n)], [letter(1, a, val(n))],
                 [state_put(a, n)], [delay(a, 100, at(P, 0), 'k', val(n))])
def letters_put(P, p, n): return feedback([letter(at(P, 0), at(P, p), val(n))])

def live(disk, P, life):
    store = Store(disk, job_text(P))
    for n in (1, 2):
        life['begun'] += 1
        store.manifest.append(opening(LIMIT[n]))
        life['answered'] += 1
        places = []
        for p in range(P):
            a = store.logs[p].append(piece_put(P, p, n))
            places.append((a, store.logs[p].append(letters_put(P, p, n))))
        life['begun'] += 1
        store.manifest.append(complete(n, LEG[n], MOMENT[n], [n, 0], [take_entry(n)], places))
        life['answered'] += 1

def good(P):
    disk = Disk()
    live(disk, P, {'begun': 0, 'answered': 0})
    return list(disk.seen)

num8 = lambda n: n.to_bytes(8, 'big')
part = lambda b: num8(len(b)) + b
def loaded(P, n):
    return (num8(n) + num8(LEG[n]) + num8(MOMENT[n]) + num8(n) + num8(0) + b''.join(part(piece_put(P, p, n)) for p in range(P))
            + b''.join(part(letters_put(P, p, n)) for p in range(P)))

def plan(P):
    out = job_text(P).encode().hex()
    for n in (1, 2):
        mark = complete(n, LEG[n], MOMENT[n], [n, 0], [take_entry(n)], [])
        out += ' / %d %s ' % (LIMIT[n], mark.hex()) + ' '.join(piece_put(P, p, n).hex() + ':' + letters_put(P, p, n).hex() for p in range(P))
    return out

def whole(P):
    files = good(P)
    out = ['  %d %s' % (f, files[f].hex()) for f in range(7)]
    store = Store(Disk(files), job_text(P))
    out.append('  newest %d leg %d' % (len(store.completes), store.leg))
    out.append('  loaded ' + loaded(P, 2).hex())
    keyed = []
    for n in (1, 2):
        keyed.append(((LEG[n], 1, 0), take_entry(n)))
        keyed += [((LEG[n], 20 - p, 2 + p), batch_entry(P, p, n)) for p in range(P)]
    out += ['  entry ' + e.hex() for key, e in sorted(keyed)]
    out += ['  egress ' + egress_put(P, p, n).hex() for n in (1, 2) for p in range(P)]
    return out

# ---- crashes
STATES = [(0, 0), (0, 5), (1, 5), (1, 8), (2, 9)]
@functools.lru_cache(None)
def found(image, job):
    store = Store(Disk(image), job)
    return (len(store.completes), store.leg, store.entries(), tuple(b for _, e in store.completes for b in e))

@functools.lru_cache(None)
def reopened(image, job, pick):
    want, cases, stop = found(image, job), 0, 0
    while True:
        disk = Disk(image, stop)
        try: Store(disk, job); done = True
        except Stopped: done = False
        assert found(disk.crash(pick), job) == want
        cases += 1
        if done: return cases
        stop += 1

def crashes(P, first, second):
    spans, stop, job = [], 0, job_text(P)
    while True:
        disk, life, done = Disk(stop=stop), {'begun': 0, 'answered': 0}, True
        try: live(disk, P, life)
        except Stopped: done = False
        image = disk.crash(first)
        newest, leg, entries, there = found(image, job)
        state = STATES.index((newest, leg))
        assert life['answered'] <= state <= life['begun']
        wanted = [b for n in range(1, newest + 1) for b in [take_entry(n)] + [batch_entry(P, p, n) for p in range(P)]]
        assert list(there) == wanted
        cases = reopened(image, job, second)
        key = (life['answered'], newest, leg, entries)
        if spans and spans[-1][2] == key: spans[-1][1] = stop; spans[-1][3] += cases
        else: spans.append([stop, stop, key, cases])
        if done: break
        stop += 1
    return ['  %d..%d answered %d newest %d leg %d entries %d cases %d' % ((a, b) + key + (n,)) for a, b, key, n in spans]

# ---- cuts
def cut_row(f):
    full = [(2 + p, 'blocks', [x for n in (1, 2) for x in (piece_put(2, p, n), letters_put(2, p, n))]) for p in (0, 1)]
    at_, places = [0, 0], [[], []]
    for p in (0, 1):
        end = 0
        for k, body in enumerate(full[p][2]):
            places[p].append(end); end += 9 + len(body)
    full.append((0, 'blocks', [job_block(1, job_text(2))] + [b for n in (1, 2) for b in (opening(LIMIT[n]),
                complete(n, LEG[n], MOMENT[n], [n, 0], [take_entry(n)], [tuple(places[p][2 * n - 2:2 * n]) for p in (0, 1)]))]))
    if f == 17: full.append((17, 'blocks', [b'abc', b'']))
    files, row = changed_files([b''] * FILES, full)
    if f != 17: assert files[:4] == good(2)[:4] or f == 1
    out, size = [], len(files[f])
    for n in range(size, -1, -1):
        a = answer(files[:f] + [files[f][:n]] + files[f + 1:], job_text(2))
        if out and out[-1][2] == a: out[-1][1] = n
        else: out.append([n, n, a])
    return 'cut %d / ' % f + ' / '.join(row), ['  %d..%d %s' % tuple(o) for o in out]

# ---- rows of broken folders
def words(b):
    """bytes as a word: digits, with long runs of one byte counted"""
    if not b: return "''"
    out, i, plain = [], 0, b''
    while i < len(b):
        j = i
        while j < len(b) and b[j] == b[i]: j += 1
        if j - i >= 100:
            if plain: out.append(plain.hex())
            out.append('%02x*%d' % (b[i], j - i)); plain = b''
        else: plain += b[i:j]
        i = j
    if plain: out.append(plain.hex())
    return ','.join(out)

BASE = [(2, 'blocks', [piece(0), b'', piece(0), b'']), (3, 'blocks', [piece(1), b'', piece(1), b'']),
        (0, 'blocks', [job_block(1, job_text(2)), complete(1, 3, 10, [1, 0], [], [(0, 9), (0, 11)]), complete(2, 9, 20, [2, 0], [], [(18, 27), (20, 31)])])]
def changed_files(files, changes):
    row = []
    for f, kind, what in changes:
        if kind == 'blocks':
            log = Log(Disk(files), f)
            for body in what: log.append(body)
            files = list(log.disk.seen)
            row.append('%d ' % f + ' '.join(words(b) for b in what))
        else:
            files = list(files)
            files[f] = (files[f][:-1] if kind == '+' else b'') + what
            row.append('%d %s %s' % (f, kind, words(what)))
    return files, row

def open_row(base, changes):
    """changes: (file, 'blocks', [body ..]) or (file, '=' or '+', bytes)"""
    changes = list(changes)
    if base == 'good':
        # blocks for a file that has some are written behind them
        start = []
        for f, kind, what in BASE:
            more = [c for c in changes if c[0] == f and c[1] == 'blocks']
            for c in more: what = what + c[2]; changes.remove(c)
            start.append((f, kind, what))
        changes = start + changes
    files, row = changed_files([b''] * FILES, changes)
    return 'open ' + ' / '.join(row), ['  %s; as it is %s' % (answer(files, job_text(2)), answer(files, None))]

GOOD = changed_files([b''] * FILES, BASE)[0]
ENDS = [len(GOOD[f]) - 1 for f in range(4)]   # where the closed gate of each file stands
def old_places():
    store = Store(Disk(GOOD), job_text(2))
    return store.completes[-1][0]['places']
PLACES = old_places()
TAKE3 = entry(10, 1, 0, take_step(0))
def third(places=PLACES, number=3, leg=10, moment=30, taken=(3, 0), takes=(TAKE3,)):
    return (0, 'blocks', [complete(number, leg, moment, taken, takes, places)])
def with_piece(b, p=0, **more):
    places = list(PLACES); places[p] = (ENDS[2 + p], PLACES[p][1])
    return [(2 + p, 'blocks', [b]), third(places, **more)]
def with_letters(b, p=0):
    places = list(PLACES); places[p] = (PLACES[p][0], ENDS[2 + p])
    return [(2 + p, 'blocks', [b]), third(places)]
def at_place(p, which, place):
    places = list(PLACES)
    places[p] = (place, places[p][1]) if which == 'piece' else (places[p][0], place)
    return [third(places)]

E, C, A, Bb = [('c', 'd', i) for i in 'ecab']     # of two partitions E and C are in 0, A and Bb in 1
LONG = next(('c', 'd', x + y) for x in 'ab' for y in 'abcdefghijklmnopqrstuvwxyz' if partition_of(('c', 'd', x + y), 2) == 0)
assert [partition_of(a, 2) for a in (E, C, A, Bb, LONG)] == [0, 0, 1, 1, 0]
assert LONG[2] < C[2] and address(C) < address(LONG)
def rep(a): return reply(call(10, 0, 0), a, 30, [0], b'x')
def ent(step): return entry(10, 5, 2, step)
def cells(n): return [cell('n%d' % i, 't/v', 0, 0, False, 0, b'') for i in range(n)]
def one(**kw):
    d = dict(name='n', typename='t/v', mode=0, millis=0, has=True, stamp=0, b=b''); d.update(kw)
    return cell(**d)
V = val(1)
SHORT = b'\1' + (5).to_bytes(8, 'big') + b'\0'

def broken_rows():
    R = []
    def t(title): R.append('# ' + title)
    def r(base, *changes): R.append(open_row(base, list(changes)))
    t('No file, the good folder, and the good folder with a third checkpoint whose parts are those of the second')
    r('empty', (0, '=', b'')); r('good'); r('good', third())
    t('No log, by the first gate of each file, and by the gate behind its blocks')
    for f in (0, 2, 3, 17): r('good', (f, '=', SHORT))
    for f in (0, 2, 3, 17): r('good', (f, '+', SHORT))
    t('The first file that is no log counts, also where the manifest breaks its form or is of another job; files of others do not')
    r('good', (17, '=', SHORT), (3, '+', SHORT))
    r('good', (0, 'blocks', [b'\xff']), (17, '=', SHORT))
    r('empty', (0, 'blocks', [job_block(1, job_text(4))]), (9, '=', SHORT))
    r('good', (1, '=', SHORT), (18, '=', SHORT))
    t('A file of a partition that the job has not: a good log whose blocks mean nothing')
    r('good', (4, 'blocks', [b'\xff', b'']), (17, 'blocks', [b'abc']))
    t('No job first: an opening, a checkpoint, nothing, what is no message')
    r('empty', (0, 'blocks', [opening(3)])); r('empty', (0, 'blocks', [complete(1, 1, 1, [0, 0], [], PLACES)]))
    r('empty', (0, 'blocks', [b''])); r('empty', (0, 'blocks', [b'\xff'])); r('empty', (0, 'blocks', [b'\x0a\x05\x08\x01']))
    t('A job of version 2, and of none')
    r('empty', (0, 'blocks', [job_block(2, job_text(2))])); r('empty', (0, 'blocks', [job_block(0, job_text(2))]))
    t('Other jobs: a first line that is none, and numbers of partitions')
    for text_ in ('', 'partition 2\n', 'partitions\n', 'partitions 2 \n', ' partitions 2\n', 'partitions 0\n', 'partitions 17\n', 'partitions 02\n',
                  'partitions +2\n', 'partitions 2x\n', 'partitions 18446744073709551618\n', 'ingress a/b 2\npartitions 2\n', 'partitions 2\r\n',
                  'partitions 1', 'partitions 16\n', 'partitions 2\n'):
        r('empty', (0, 'blocks', [job_block(1, text_)]))
    t('Another job comes before a block that breaks the form, and before a checkpoint that does')
    r('empty', (0, 'blocks', [job_block(1, job_text(4)), b'\xff']))
    t('Splits of another job: 1, 32 and 1, and lines that name none; with 34 counts and with 33')
    splits = 'partitions 1\ningress a 1 x\ningress b 32\ningress c 33\ningress d 0\ningress e\ningress\ningress  1\n ingress f 1\ningressx g 1\negress h 1\n'
    for n in (34, 33):
        r('empty', (2, 'blocks', [piece(0), b'']), (0, 'blocks', [job_block(1, splits), complete(1, 1, 0, [0] * n, [], [(0, 9)])]))
    t('A second job, a block that is no message, one that is empty, and one that is cut')
    r('good', (0, 'blocks', [job_block(1, job_text(2))])); r('good', (0, 'blocks', [b'\xff'])); r('good', (0, 'blocks', [b'']))
    r('good', (0, 'blocks', [third()[2][0][:-1]]))
    t('Runs: a leg below the stored one, and one above')
    r('good', (0, 'blocks', [opening(4)])); r('good', (0, 'blocks', [opening(12), opening(11)])); r('good', (0, 'blocks', [opening(2 ** 64 - 1)]))
    t('Number 2 where 1 is next; 2, 4 and 0 where 3 is')
    r('empty', (2, 'blocks', [piece(0), b'']), (3, 'blocks', [piece(1), b'']),
      (0, 'blocks', [job_block(1, job_text(2)), complete(2, 2, 0, [0, 0], [], [(0, 9), (0, 11)])]))
    r('empty', (2, 'blocks', [piece(0), b'']), (3, 'blocks', [piece(1), b'']),
      (0, 'blocks', [job_block(1, job_text(2)), complete(1, 2, 0, [0, 0], [], [(0, 9), (0, 11)])]))
    for n in (2, 4, 0): r('good', third(number=n))
    t('A number above its leg, and equal to it; a leg below that of the checkpoint before')
    r('good', third(leg=2)); r('good', third(leg=3)); r('good', third(leg=4))
    t('A count too few and too many, a place too few and too many')
    r('good', third(taken=(3,))); r('good', third(taken=(3, 0, 0)))
    r('good', third(PLACES[:1])); r('good', third(PLACES + [(0, 0)]))
    t('Beside the takes of splits that the job has not: a batch, a registration, a delayed letter')
    r('good', third(takes=(TAKE3, entry(10, 1, 7, take_step(7)))))
    for step in (batch_step(rep(E)), register_step(rep(E)), due_step(E, 1)): r('good', third(takes=(TAKE3, ent(step))))
    t('A place that names no block: of a piece and of letters, in both partitions')
    for p in (0, 1):
        for which in ('piece', 'letters'):
            for place in (1, ENDS[2 + p], 2 ** 62, 2 ** 64 - 1): r('good', *at_place(p, which, place))
    t('Pieces and letters of the checkpoint before; the places of piece and letters changed over')
    r('good', *at_place(0, 'piece', 0))
    r('good', third([PLACES[0][::-1], PLACES[1]])); r('good', third([PLACES[0], PLACES[1][::-1]])); r('good', *at_place(1, 'letters', PLACES[1][0]))
    t('A piece that is no message, one that is empty, and one of a further field')
    r('good', *with_piece(b'\xff')); r('good', *with_piece(b'')); r('good', *with_piece(b'', 1)); r('good', *with_piece(b'\x3a\x01\x61'))
    t("Another partition's number")
    r('good', *with_piece(piece(1))); r('good', *with_piece(piece(0), 1)); r('good', *with_piece(piece(1), 1)); r('good', *with_piece(piece(2), 1))
    t('An entry of an address of the partition, and of another: a batch, a registration, a delayed letter; a take')
    for step in (batch_step, register_step):
        r('good', *with_piece(piece(0, [ent(step(rep(E))), ent(step(rep(C)))]))); r('good', *with_piece(piece(0, [ent(step(rep(E))), ent(step(rep(A)))])))
    r('good', *with_piece(piece(0, [ent(due_step(E, 99))]))); r('good', *with_piece(piece(0, [ent(due_step(Bb, 99))])))
    r('good', *with_piece(piece(0, [TAKE3])))
    t('Egress, a letter, a delayed letter: of the partition, and of another; what they go to and come from may be anywhere')
    r('good', *with_piece(piece(0, [], [egress(C, 'c', 'e', V)]))); r('good', *with_piece(piece(0, [], [egress(C, 'c', 'e', V), egress(A, 'c', 'e', V)])))
    r('good', *with_piece(piece(0, [], [], [letter(A, E, V), letter(7, C, V)]))); r('good', *with_piece(piece(0, [], [], [letter(E, A, V)])))
    r('good', *with_piece(piece(0, delays=[delay(E, 99, A, '', V)]))); r('good', *with_piece(piece(0, delays=[delay(A, 1, E, '', V)])))
    t('A state of the partition, and of another')
    r('good', *with_piece(piece(0, states=[state(E, 0, [])]))); r('good', *with_piece(piece(0, states=[state(A, 0, [])])))
    r('good', *with_piece(piece(1, states=[state(A, 0, [])]), 1)); r('good', *with_piece(piece(1, states=[state(E, 0, [])]), 1))
    t('States in byte order of the encoded addresses, where a longer id comes later; out of order; twice the same')
    r('good', *with_piece(piece(0, states=[state(C, 0, []), state(E, 0, []), state(LONG, 0, [])])))
    r('good', *with_piece(piece(0, states=[state(LONG, 0, []), state(C, 0, [])]))); r('good', *with_piece(piece(0, states=[state(E, 0, []), state(C, 0, [])])))
    r('good', *with_piece(piece(0, states=[state(E, 0, []), state(E, 0, [])])))
    t('64 cells, and 65; the same name twice, also with other cells between')
    r('good', *with_piece(piece(0, states=[state(E, 0, cells(64))]))); r('good', *with_piece(piece(0, states=[state(E, 0, cells(65))])))
    r('good', *with_piece(piece(0, states=[state(E, 0, [one(), one()])]))); r('good', *with_piece(piece(0, states=[state(E, 0, cells(3) + [one(name='n0')])])))
    r('good', *with_piece(piece(0, states=[state(C, 0, [one()]), state(E, 0, [one()])])))
    t('Modes 2, 3 and -1')
    for m in (2, 3, 2 ** 64 - 1): r('good', *with_piece(piece(0, states=[state(E, 0, [one(mode=m)])])))
    t('A value of 1,048,576 bytes, and of one more; also where the cell says that it has none')
    for n in (1048576, 1048577): r('good', *with_piece(piece(0, states=[state(E, 0, [one(b=b'a' * n)])])))
    r('good', *with_piece(piece(0, states=[state(E, 0, [one(has=False, b=b'a' * 1048577)])])))
    t('Served at the moment of the checkpoint, and later; a cell stamped at that moment, and later')
    for n in (30, 31, 2 ** 64 - 1): r('good', *with_piece(piece(0, states=[state(E, n, [])])))
    for n in (30, 31): r('good', *with_piece(piece(0, states=[state(C, 1, [one(name='o'), one(stamp=n)]), state(E, 0, [])])))
    t('Letters that are no message, none, one that needs an argument, one of the partition and one of another')
    r('good', *with_letters(b'\xff')); r('good', *with_letters(b'')); r('good', *with_letters(feedback([msg(1, sender(0)) + msg(2, address(E))])))
    r('good', *with_letters(feedback([letter(0, C, V), letter(A, E, V)]))); r('good', *with_letters(feedback([letter(0, C, V), letter(E, A, V)])))
    r('good', *with_letters(feedback([letter(0, E, V)]), 1))
    t('Two breaks: the first in order of the partitions counts, the piece before the letters, the checkpoint before its parts')
    bad = [(ENDS[2], ENDS[2]), (ENDS[3], PLACES[1][1])]
    r('good', (2, 'blocks', [b'\xff']), (3, 'blocks', [b'\xff']), third(bad)); r('good', (2, 'blocks', [b'\xff']), (3, 'blocks', [b'\xff']), third([(PLACES[0][0], ENDS[2]), bad[1]]))
    r('good', third([(1, 1), (1, 1)], number=4))
    r('good', third(), third(number=4, moment=19)); r('good', third(moment=19), (0, 'blocks', [b'\xff']))
    return R

HEAD = """# Folders of checkpoints on a disk in memory. A line with a # in front is a title, and each other line is a row, written back
# with what came of it below. A PLAN is what a life writes: JOB / LIMIT MARK PIECE:LETTERS .. / LIMIT MARK PIECE:LETTERS ..
#   whole PLAN                 the bytes of the files behind such a life, and what is found in them
#   crashes FIRST SECOND PLAN  stops the disk at each call of that life, and crashes by the pick FIRST; stops the opening of each
#                              image at each call, and crashes by SECOND; opens what is left. A line has the stops between which
#                              as much was answered and the same is found, and how often the second crash left that
#   open CHANGE / CHANGE ..    opens a folder with these files, for its job and as it is:
#                              FILE BODY ..  blocks are added;  FILE = BYTES  holds these;  FILE + BYTES  these in place of its last byte
#   cut FILE / CHANGE ..       cuts a file of such a folder to each length, and opens it"""

def all_rows(pairs):
    R = [h for h in HEAD.split('\n')]
    R.append('# Whole folders over 1, 2 and 4 partitions')
    for P in (1, 2, 4): R.append(('whole ' + plan(P), whole(P)))
    R += broken_rows()
    R.append('# Cuts of the manifest, of the files of both partitions, and of one of no partition')
    for f in (0, 2, 3, 17): R.append(cut_row(f))
    R.append('# Crashes over 1, 2 and 4 partitions')
    for P, a, b in pairs: R.append(('crashes %d %d %s' % (a, b, plan(P)), crashes(P, a, b)))
    return R

if __name__ == '__main__':
    pairs = [tuple(int(x) for x in w.split(',')) for w in sys.argv[1].split()]
    R = all_rows(pairs)
    with open(sys.argv[2] + '/stdin', 'w') as i, open(sys.argv[2] + '/stdout', 'w') as o:
        for row in R:
            if isinstance(row, str): i.write(row + '\n'); o.write(row + '\n')
            else:
                i.write(row[0] + '\n'); o.write(row[0] + '\n')
                for line in row[1]: o.write(line + '\n')
