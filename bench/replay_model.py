"""A small model of `replay`, from the rules alone."""
import heapq, random, sys
from fractions import Fraction

class Region:
    def __init__(s, r, c, h, w):
        s.r, s.c, s.h, s.w = r, c, h, w
        s.q = [(y, x) for y in range(r, r+h) for x in range(c, c+w)]
        Q = set(s.q)
        s.checks = {}
        for i in range(r, r+h+1):
            for j in range(c, c+w+1):
                ir, ic = r < i < r+h, c < j < c+w
                ok = (ir and ic) or (ic and not ir and (i+j) % 2 == 1) or (ir and not ic and (i+j) % 2 == 0)
                if ok:
                    s.checks[i, j] = [q for q in [(i-1, j-1), (i-1, j), (i, j-1), (i, j)] if q in Q]

def kind(c): return 'z' if sum(c) % 2 == 0 else 'x'

class Sched:
    def __init__(s, text):
        s.patches, s.init, s.read, s.merges, s.conds, s.obs = {}, {}, {}, [], [], []
        lines = text.split('\n')
        for n, line in enumerate(lines, 1):
            f = line.split()
            if not f or line[0] == '#': continue
            if f[0] == 'distance': s.D = int(f[1])
            if f[0] == 'weights': s.S, s.T = int(f[1]), int(f[2])
            if f[0] == 'patch': s.patches[f[1]] = (int(f[2]), int(f[3]))
            if f[0] == 'init': s.init[f[1]] = (f[2], int(f[3]))
            if f[0] == 'merge': s.merges.append((f[1], f[2], f[3], int(f[4]), int(f[5]))); s.obs += [f[1], f[1]+'.seam']
            if f[0] == 'read': s.read[f[2]] = (f[1], f[3], int(f[4])); s.obs.append(f[1])
            if f[0] == 'cond': s.conds.append((f[1], f[2], int(f[3]), f[4:]))
            if f[0] == 'rounds': s.rounds_line = n; break
        s.last = max(v[2] for v in s.read.values())
        s.build()
    def patch_region(s, p):
        R, C = s.patches[p]; D = s.D
        return Region(R*(D+1), C*(D+1), D, D)
    def merge_geo(s, m):
        a, b = sorted([s.patches[m[1]], s.patches[m[2]]]); D = s.D
        r, c = a[0]*(D+1), a[1]*(D+1)
        if a[0] == b[0]:
            return Region(r, c, D, 2*D+1), [(r+i, c+D) for i in range(D)], 'z'
        return Region(r, c, 2*D+1, D), [(r+D, c+i) for i in range(D)], 'x'
    def regions(s, t):
        out, used = [], set()
        for m in s.merges:
            if m[3] <= t < m[3]+m[4]:
                out.append(s.merge_geo(m)[0]); used |= {m[1], m[2]}
        for p in s.patches:
            if p not in used and s.init[p][1] <= t < s.read[p][2]:
                out.append(s.patch_region(p))
        return out
    def readq(s, t):
        out = {}
        for p in s.patches:
            if s.read[p][2] == t:
                for q in s.patch_region(p).q: out[q] = s.read[p][1]
        for m in s.merges:
            if m[3]+m[4] == t:
                _, seam, b = s.merge_geo(m)
                for q in seam: out[q] = b
        return out
    def checks(s, t):
        d = {}
        for r in s.regions(t): d.update(r.checks)
        return d
    def build(s):
        T = s.last
        s.ch = [s.checks(t) for t in range(T+1)]
        s.rq = [s.readq(t) for t in range(T+1)]
        s.bits = []      # per slot: list of keys
        for t in range(T+1):
            s.bits.append([('q', q) for q in sorted(s.rq[t])] + [('c', c) for c in sorted(s.ch[t])])
        s.det = []       # (slot, corner, set of (slot,key))
        for t in range(T+1):
            cur = s.ch[t]; prev = s.ch[t-1] if t else {}
            for c in sorted(set(cur) | set(prev)):
                val = None
                if c in cur and c in prev:
                    val = {(t, ('c', c)), (t-1, ('c', c))}
                    for q in prev[c]:
                        if q not in cur[c] and q in s.rq[t]: val ^= {(t, ('q', q))}
                elif c in cur:
                    for p in s.patches:
                        if s.init[p][1] == t and c in s.patch_region(p).checks and kind(c) == s.init[p][0]:
                            val = {(t, ('c', c))}
                else:
                    for p in s.patches:
                        if s.read[p][2] == t and c in s.patch_region(p).checks and kind(c) == s.read[p][1]:
                            val = {(t-1, ('c', c))}
                            for q in prev[c]: val ^= {(t, ('q', q))}
                if val is not None: s.det.append((t, c, val))
        s.obits = {}; s.oslot = {}
        for m in s.merges:
            reg, seam, b = s.merge_geo(m)
            a = s.patch_region(m[1]).checks; bb = s.patch_region(m[2]).checks
            k = 'x' if b == 'z' else 'z'
            sc = [c for c in reg.checks if kind(c) == k and c not in a and c not in bb]
            assert len(sc) == s.D+1
            s.obits[m[0]] = {(m[3], ('c', c)) for c in sc}; s.oslot[m[0]] = m[3]
            s.obits[m[0]+'.seam'] = {(m[3]+m[4], ('q', min(seam)))}; s.oslot[m[0]+'.seam'] = m[3]+m[4]
        for p, (lab, b, t) in s.read.items():
            reg = s.patch_region(p)
            qs = [q for q in reg.q if (q[0] == reg.r if b == 'z' else q[1] == reg.c)]
            s.obits[lab] = {(t, ('q', q)) for q in qs}; s.oslot[lab] = t
        # mechanisms
        bydet = {}
        for n, d in enumerate(s.det):
            for b in d[2]: bydet.setdefault(b, []).append(n)
        s.edges = []
        for t in range(T+1):
            mech = []
            for q in sorted(s.rq[t]): mech.append((0, q, {(t, ('q', q))}, s.S))
            act = set(q for r in s.regions(t) for q in r.q)
            for cl, b in ((1, 'z'), (2, 'x')):
                for q in sorted(act):
                    fl = set()
                    u = t
                    while u <= T:
                        if u > t and q in s.rq[u]:
                            if s.rq[u][q] == b: fl ^= {(u, ('q', q))}
                            break
                        for c, sup in s.ch[u].items():
                            if kind(c) == b and q in sup: fl ^= {(u, ('c', c))}
                        u += 1
                    mech.append((cl, q, fl, s.S))
            for c in sorted(s.ch[t]): mech.append((3, c, {(t, ('c', c))}, s.T))
            for m in mech:
                ends = set()
                for b in m[2]:
                    for n in bydet.get(b, []): ends ^= {n}
                if ends:
                    assert len(ends) <= 2, (t, m)
                    mask = [l for l in s.obs if len(s.obits[l] & m[2]) % 2]
                    s.edges.append((sorted(ends), m[3], mask))
    def tile(s, v):
        return (s.det[v][1][0] // (s.D+1), s.det[v][1][1] // (s.D+1))
    def plan(s, commit, buffer):
        cell = lambda v: (s.det[v][0] // commit, s.tile(v))
        cells = sorted(set(cell(v) for v in range(len(s.det))))
        rank = {c: i for i, c in enumerate(cells)}
        rk = [rank[cell(v)] for v in range(len(s.det))]
        adj = {}
        for e, (ends, w, m) in enumerate(s.edges):
            for v in ends: adj.setdefault(v, []).append(e)
        W = len(cells); s.W = W
        s.V, s.E, s.own, s.deps, s.lastw = [], [], [], [], []
        owner = [min(rk[v] for v in ends) for ends, _, _ in s.edges]
        s.owner, s.rk = owner, rk
        for w in range(W):
            dist = {v: 0 for v in range(len(s.det)) if rk[v] == w}
            fr = list(dist)
            for b in range(buffer):
                nx = []
                for v in fr:
                    for e in adj.get(v, []):
                        for u in s.edges[e][0]:
                            if u not in dist and rk[u] >= w: dist[u] = b+1; nx.append(u)
                fr = nx
            V = sorted(dist); s.V.append(V); VS = set(V)
            E = [e for e, (ends, _, _) in enumerate(s.edges) if any(v in VS for v in ends) and all(rk[v] >= w for v in ends)]
            s.E.append(E)
            s.own.append([e for e in E if owner[e] == w])
            s.deps.append(sorted({owner[e] for e, (ends, _, _) in enumerate(s.edges) if any(v in VS for v in ends) and any(rk[v] < w for v in ends)}))
            s.lastw.append(max(s.det[v][0] for v in V))
    def places(s, x, w):
        if (x, w) not in s.pl: s.pl[x, w] = s.places_of(x, w)
        return s.pl[x, w]
    def places_of(s, x, w):
        VS = set(s.V[w])
        return sorted({v for e, (ends, _, _) in enumerate(s.edges) if s.owner[e] == x for v in ends if v in VS})
    tie = False
    def solve(s, w, defects):
        s.tie = False
        """a least edge set of the window; asserts that what is kept of it is the only one"""
        kept = None
        for trial in range(4):
            rnd = random.Random(trial)
            F = s.tjoin(w, defects, rnd if trial else None)
            wt = sum(s.edges[e][1] for e in F)
            if trial == 0: base = wt; first = F
            assert wt == base
            k = [e for e in F if e in set(s.own[w])]
            if kept is None: kept = k
            if kept != k: s.tie = True
        return first, kept
    def tjoin(s, w, defects, rnd):
        VS = set(s.V[w]); B = -1
        adj = {}
        for e in s.E[w]:
            ends = [v for v in s.edges[e][0] if v in VS]
            wt = Fraction(s.edges[e][1]) + (Fraction(rnd.randrange(1000), 10**7) if rnd else 0)
            a, b = (ends[0], ends[1]) if len(ends) == 2 else (ends[0], B)
            adj.setdefault(a, []).append((b, e, wt)); adj.setdefault(b, []).append((a, e, wt))
        def dij(src):
            d = {src: (0, None, None)}; done = set(); h = [(0, src)]
            while h:
                c, v = heapq.heappop(h)
                if v in done: continue
                done.add(v)
                for u, e, wt in adj.get(v, []):
                    if u not in d or c+wt < d[u][0]:
                        d[u] = (c+wt, v, e); heapq.heappush(h, (c+wt, u))
            return d
        D = {v: dij(v) for v in defects}
        def path(a, b):
            F = set(); d = D[a]
            while b != a: F ^= {d[b][2]}; b = d[b][1]
            return F
        from functools import lru_cache
        @lru_cache(None)
        def best(rest):
            if not rest: return (0, ())
            a = rest[0]; r = rest[1:]
            c, p = best(r)
            res = (D[a][B][0]+c, ((a, B),)+p)
            for i, b in enumerate(r):
                c, p = best(r[:i]+r[i+1:])
                res = min(res, (D[a][b][0]+c, ((a, b),)+p), key=lambda z: z[0])
            return res
        F = set()
        for a, b in best(tuple(sorted(defects)))[1]: F ^= path(a, b)
        return sorted(F)

PLANS = {}
class Replay:
    def __init__(s, sch, rows, retries, guess, commit=None, buffer=None):
        key = (commit or sch.D+1, sch.D if buffer is None else buffer)
        s.sch = sch
        if getattr(sch, 'planned', None) != key: sch.plan(*key); sch.planned = key; sch.pl = {}
        s.rows = rows; s.retries = retries; s.guess = guess
        s.arrived = 0
        s.vals = []
        bit = {}
        for t, r in enumerate(rows):
            assert len(r) == len(sch.bits[t]), (t, len(r), len(sch.bits[t]))
            for k, b in zip(sch.bits[t], r): bit[t, k] = int(b)
        s.val = [sum(bit.get(b, 0) for b in d[2]) % 2 for d in sch.det]
        s.raw = {l: sum(bit.get(b, 0) for b in sch.obits[l]) % 2 for l in sch.obs}
        W = sch.W
        s.state = ['W']*W; s.tick = [None]*W; s.poison = [0]*W
        s.tickets = []      # dict window, links [(x,'?',bits)|(x,'=',k)] linkbits, closed, result
        s.rel = {}; s.log = []; s.out = []; s.trace = []; s.kept = {}
        s.counts = dict(claims=0, guessed=0, poisoned=0, dropped=0, stale=0)
    def standing(s, k): return any(s.tick[w] == k and s.state[w] in 'HD' for w in range(s.sch.W))
    def flips(s, x, w):
        F = s.tickets[s.tick[x]]['kept']; assert not s.tickets[s.tick[x]]['tie'], ('tie used', x)
        return [sum(v in s.sch.edges[e][0] for e in F) % 2 for v in s.sch.places(x, w)]
    def needs(s, op):
        labs = s.sch.conds[op][3]
        return [w for w in range(s.sch.W) if any(sum(l in labs for l in s.sch.edges[e][2]) % 2 for e in s.sch.own[w])]
    def say(s, line): s.out.append(line); s.trace.append(line)
    def may_arrive(s):
        t = s.arrived
        return t <= s.sch.last and all(op in s.rel for op, c in enumerate(s.sch.conds) if c[2] <= t)
    def arrive(s):
        if not s.may_arrive(): return False
        s.say(f'arrive {s.arrived}'); s.log.append(f'arrive {s.arrived}'); s.arrived += 1
        return True
    def bits(s, k, i):
        return s.tickets[k]['bits'][i]
    def problem(s, k):
        tk = s.tickets[k]; w = tk['w']; d = set(v for v in s.sch.V[w] if s.val[v])
        for x, bs in zip(s.sch.deps[w], tk['bits']):
            for v, b in zip(s.sch.places(x, w), bs):
                if b: d ^= {v}
        return sorted(d)
    def turn(s):
        sch = s.sch
        act = [w for w in range(sch.W) if s.state[w] in 'RH']
        for w in act:
            for x, o in zip(sch.deps[w], s.tickets[s.tick[w]]['org']):
                if o != '?' and not s.standing(o):
                    s.say(f'drop {w}'); s.state[w] = 'W'; s.tick[w] = None; s.poison[w] += 1; s.counts['dropped'] += 1; return
        for w in act:
            tk = s.tickets[s.tick[w]]
            for i, x in enumerate(sch.deps[w]):
                if tk['org'][i] == '?' and s.state[x] in 'HD':
                    if s.flips(x, w) == tk['bits'][i]:
                        tk['org'][i] = s.tick[x]; s.say(f'verify {x} {w}')
                    else:
                        s.state[w] = 'W'; s.tick[w] = None; s.poison[w] += 1; s.say(f'poison {x} {w}'); s.counts['poisoned'] += 1
                    return
        for w in range(sch.W):
            if s.state[w] == 'H' and all(o != '?' and any(s.tick[x] == o and s.state[x] == 'D' for x in range(sch.W)) for o in s.tickets[s.tick[w]]['org']):
                assert not s.tickets[s.tick[w]]['tie'], ('tie committed', w)
                s.state[w] = 'D'; F = s.tickets[s.tick[w]]['kept']; s.kept[w] = F
                line = ' '.join(['commit', str(w)] + [str(e) for e in F]); s.say(line); s.log.append(line); return
        for op, c in enumerate(sch.conds):
            if op not in s.rel and all(s.state[w] == 'D' for w in s.needs(op)) and all(sch.oslot[l] < s.arrived for l in c[3]):
                b = sum(s.raw[l] ^ s.flip(l) for l in c[3]) % 2
                s.rel[op] = b; s.say(f'release {c[0]} {b}'); s.log.append(f'released {c[0]} {b}'); return
        for w in range(sch.W):
            if s.state[w] == 'W' and sch.lastw[w] < s.arrived and (s.poison[w] < s.retries or all(s.state[x] == 'D' for x in sch.deps[w])):
                k = len(s.tickets); org, bits, txt = [], [], []
                for x in sch.deps[w]:
                    if s.state[x] in 'HD':
                        org.append(s.tick[x]); bits.append(s.flips(x, w)); txt.append(f'{x}={s.tick[x]}')
                    else:
                        bs = [s.guess(s, x, w, v) for v in sch.places(x, w)]
                        org.append('?'); bits.append(bs); txt.append(f'{x}?' + ''.join(map(str, bs))); s.counts['guessed'] += 1
                s.tickets.append(dict(w=w, org=org, bits=bits, closed=False)); s.state[w] = 'R'; s.tick[w] = k
                s.counts['claims'] += 1
                s.say(' '.join([f'claim {k} {w}'] + txt)); return
        done = all(x == 'D' for x in s.state) and len(s.rel) == len(sch.conds)
        s.out.append('done' if done else 'idle')
    def flip(s, l):
        return sum(l in s.sch.edges[e][2] for F in s.kept.values() for e in F) % 2
    def finish(s, k):
        if k >= len(s.tickets) or s.tickets[k]['closed']: return False
        tk = s.tickets[k]; w = tk['w']; tk['closed'] = True
        if s.state[w] == 'R' and s.tick[w] == k:
            tk['set'], tk['kept'] = s.sch.solve(w, s.problem(k)); tk['tie'] = s.sch.tie; s.state[w] = 'H'; s.say(f'hold {k}')
        else:
            cur = s.tick[w] if s.state[w] == 'R' else 'none'
            s.say(f'stale {k} {cur}'); s.counts['stale'] += 1
        return True
    def tail(s):
        o = ['log 1'] + s.log + ['end log']
        sch = s.sch
        if s.arrived == sch.last+1 and all(x == 'D' for x in s.state) and len(s.rel) == len(sch.conds):
            o += [f'frame {l} {s.raw[l]} {s.flip(l)} {s.raw[l] ^ s.flip(l)}' for l in sch.obs]
        E = [e for F in s.kept.values() for e in F]
        nd = sum(v for v, d in zip(s.val, sch.det) if d[0] < s.arrived)
        o.append(f"summary windows {sch.W} done {sum(x == 'D' for x in s.state)} defects {nd} edges {len(E)} weight {sum(sch.edges[e][1] for e in E)}")
        return o
    def run(s, script):
        n0 = s.sch.rounds_line + s.sch.last + 2
        fault = None; status = 0
        for i, line in enumerate(script):
            ok = {'arrive': s.arrive, 'turn': lambda: (s.turn(), True)[1]}.get(line)
            r = ok() if ok else s.finish(int(line.split()[1]))
            if not r: fault = f'fault script line {n0+1+i}'; status = 8; break
        return status, s.out + s.tail() + ([fault] if fault else [])

def zero(r, x, w, v): return 0
def always(r, x, w, v): return 1
def near(r, x, w, v):
    sch = r.sch
    linked = any(v in ends and len(ends) == 2 and sch.owner[e] == x and
                 any(u != v and sch.rk[u] == x and r.val[u] and sch.det[u][0] < r.arrived for u in ends)
                 for e, (ends, _, _) in enumerate(sch.edges))
    return int(r.val[v] and linked)
GUESS = dict(zero=zero, always=always, near=near)

def K(T, S, Tm): return f"swiper 1\ndistance 3\nweights {S} {Tm}\npatch a 0 0\ninit a z 0\nread ra a z {T}\nrounds\n"
M = "swiper 1\ndistance 3\nweights 2 3\npatch a 0 0\npatch b 0 1\ninit a z 0\ninit b z 0\nmerge m a b 1 3\nread ra a z 5\nread rb b z 5\nrounds\n"
M2 = M.replace('weights 2 3', 'weights 3 2')
C = "swiper 1\ndistance 3\nweights 2 3\npatch a 0 0\npatch b 0 1\ninit a z 0\ninit b z 0\nread ra a z 1\ncond c b 2 ra\nread rb b z 3\nrounds\n"

def expand(t):
    out = []
    for w in t.split(','):
        w = w.strip()
        if not w: continue
        n = 1
        if '*' in w: w, n = w.split('*'); n = int(n)
        w = {'a': 'arrive', 't': 'turn'}.get(w, w)
        if w[0] == 'f' and w[1:].isdigit(): w = 'finish ' + w[1:]
        out += [w]*n
    return out
