"""Prints the replays of crates/swiper_cases with what they have to put, as replay_model.py plays them.
With the word `stdin` or `stdout` the replays of crates/replay_cases, or what these have to print."""
from replay_model import *
import sys
IN, OUT = [], []
def esc(s): return s.replace('\\','\\\\').replace('\n','\\n').replace('\r','\\r')
z = lambda s: ['0'*len(b) for b in s.bits]
def rep(name, text, rows, script, g='zero', retries=1, narrow=False, body=None, fail=None, expect=None, note=None, scriptlines=None):
    """body: raw bytes after header overriding; expect: (answer, output) else by the model"""
    s = Sched(text)
    rows = rows or z(s)
    lines = expand(script) if scriptlines is None else scriptlines
    kw = dict(commit=1, buffer=0) if narrow else {}
    r = Replay(s, rows, retries, GUESS[g], **kw)
    raw = body if body is not None else ''.join(x+'\n' for x in rows) + 'script\n' + ''.join(l+'\n' for l in lines)
    if expect is None:
        st, out = r.run(lines)
        ans = 'Complete' if st == 0 else 'Script { line: %s }' % out[-1].split()[-1]
        expect = (ans, out)
    if note: IN.append('\n# ' + note)
    else: IN.append('')
    IN.append('input ' + esc(text + raw) + '\\c')
    if g != 'zero': IN.append('guess ' + g)
    if retries != 1: IN.append(f'retries {retries}')
    if narrow: IN.append('narrow')
    if fail: IN.append(f'fail {fail}')
    IN.append('play ' + name)
    OUT.append('case ' + name); OUT.append(expect[0]); OUT.extend(expect[1])
    return r
k2 = K(2, 3, 2); R14 = ['01000000', '00000000', '000000000']
k1 = K(1, 2, 3)
rep('guess_and_verify', k2, None, 'a*2,t*2,f1,t,f0,t*3,a,t,f2,t*2', narrow=True)
rep('poison_and_drop', k2, R14, 'a*3,t*2,f1,t,f2,f0,t*5,f3,t*2,f4,t*2', narrow=True)
rep('stale_and_redo', k2, R14, 'a*3,t*3,f0,t*3,f1,f3,t*2,f2,t*2', narrow=True)
rep('near_guesses_well', k2, R14, 'a*3,t*2,f0,t*2', g='near', narrow=True)
rep('no_retry', k2, R14, 'a*3,t*2', retries=0, narrow=True)
rep('always_is_wrong', k2, None, 'a*3,t*3,f0,f1,f2,t*4,f3,t*3,f4,t*2', g='always', narrow=True)
rep('a_slot_waits_for_a_release', C, ['0000100000000000', '00100000000000000', '00000000', '000000000'], 'a*3')
rep('nothing_to_finish', k1, None, 'f0')
rep('an_empty_script', k1, None, '')
# a merge of two patches
s = Sched(M2)
def row(t, keys):
    idx = {k: i for i, k in enumerate(s.bits[t])}
    b = ['0']*len(s.bits[t])
    for k in keys: b[idx[k]] = '1'
    return ''.join(b)
def rows_with(err):
    """err: list of (slot, key)"""
    return [row(t, [k for (u, k) in err if u == t]) for t in range(s.last+1)]
one = rows_with([(1, ('c', (1, 1)))])          # a flipped outcome of a check at slot 1: two defects in time
two = rows_with([(1, ('c', (1, 1))), (3, ('c', (2, 6)))])
sys.setrecursionlimit(10000)

CACHE = {}
def search(text, rows, want, seed0, g='zero', retries=1, narrow=True, stop=60, p_turn=0.55):
    """a random legal script whose trace has what is wanted"""
    sc = Sched(text); kw = dict(commit=1, buffer=0) if narrow else dict(commit=2, buffer=1)
    best = None
    for seed in range(seed0, seed0+60):
        rnd = random.Random(seed); r = Replay(sc, rows or z(sc), retries, GUESS[g], **({'commit':1,'buffer':0} if narrow else {})); script = []
        try:
            while len(script) < stop:
                c = ['turn'] if rnd.random() < p_turn else []
                if not c:
                    c = ['arrive'] if r.may_arrive() and (rnd.random() < 0.5) else []
                    op = [k for k, t in enumerate(r.tickets) if not t['closed']]
                    if not c and op: c = ['finish %d' % rnd.choice(op)]
                if not c: continue
                l = c[0]; script.append(l)
                {'arrive': r.arrive, 'turn': r.turn}.get(l, lambda: r.finish(int(l.split()[1])))()
                if r.out[-1] == 'done': break
        except AssertionError: continue
        # idle turns say nothing new: leave most out
        if want(r, script): return script
    raise Exception('none found')
def trace_has(r, *pats):
    import re
    t = '\n'.join(r.out); pos = 0
    for p in pats:
        m = re.compile(p, re.M).search(t, pos)
        if not m: return False
        pos = m.end()
    return True
def go(name, rows, script, **kw):
    return rep(name, M2, rows, None, narrow=True, scriptlines=script, **kw)
done = lambda r: r.out[-1] == 'done'
# a result that comes after its window was dropped
sc = search(M2, one, lambda r, s: done(r) and trace_has(r, r'^drop', r'^stale'), 0, stop=110)
go('merge_stale_after_a_drop', one, sc, note='Two patches with a merge: a result that comes after its window was dropped')
sc = search(M2, two, lambda r, s: done(r) and trace_has(r, r'^verify \d+ 3$', r'^verify \d+ 5$', r'^commit 5') and r.counts['poisoned'] > 0, 500, stop=120)
go('merge_verify_turns_a_chain', two, sc, note='Verified guesses turn a chain of windows that wait for one another')
sc = search(M2, one, lambda r, s: done(r), 1000, retries=0, stop=120)
go('merge_no_retry', one, sc, retries=0, note='How often a window may be given up')
sc = search(M2, two, lambda r, s: done(r) and r.counts['poisoned'] >= 2 and max(r.poison) == 2, 1500, g='always', retries=2, stop=130)
go('merge_two_retries', two, sc, g='always', retries=2)
sc = search(M2, two, lambda r, s: done(r) and max(r.poison) >= 3, 2000, g='always', retries=8, stop=150)
go('merge_eight_retries', two, sc, g='always', retries=8)
sc = search(M2, one, lambda r, s: done(r) and trace_has(r, r'^hold 3', r'^hold 1', r'^hold 0'), 2500, g='near', stop=110)
go('merge_finished_out_of_order', one, sc, g='near', note='Tickets are finished in another order than they were claimed in')
# the usual sizes
u = rep('merge_in_wide_windows', M2, one, 'a*6,t*4,f3,f1,f0,t*4,f2,t*5', note='Blocks and buffers of the usual sizes')
# ends of scripts
base = ''.join(x+'\n' for x in one)
def cut(name, tail, cmds, status_line=None, note=None, fail=None, done_lines=None):
    """the script text `tail`; `cmds` of it are done; a fault at this line, if any"""
    r = Replay(Sched(M2), one, 1, zero, commit=1, buffer=0)
    st, out = r.run(cmds)
    assert st == 0
    if status_line == 'read': out += ['fault read']; ans = 'ReadFault'
    elif status_line: out += [f'fault script line {status_line}']; ans = 'Script { line: %d }' % status_line
    else: ans = 'Complete'
    rep(name, M2, one, '', narrow=True, body=base + 'script\n' + tail, expect=(ans, out), note=note, fail=fail)
cut('merge_cut_in_its_last_line', 'arrive\nturn\narri', ['arrive', 'turn'], 21, note='Scripts and their lines')
cut('merge_last_line_without_line_feed', 'arrive\nturn\nturn', ['arrive', 'turn', 'turn'])
cut('merge_finished_twice', 'arrive\nturn\nfinish 0\nfinish 0\nturn\n', ['arrive', 'turn', 'finish 0'], 22)
cut('merge_finished_with_zeros', 'arrive\nturn\nfinish 000000000\nturn\n', ['arrive', 'turn', 'finish 0', 'turn'])
cut('merge_thirty_three_bytes', 'arrive\nturn\n' + 'x'*33 + '\n', ['arrive', 'turn'], 21)
cut('merge_thirty_two_bytes', 'arrive\nturn\n' + 'finish ' + '0'*25 + '\nturn\n', ['arrive', 'turn'], 21)
cut('merge_a_blank_line', 'arrive\n\nturn\n', ['arrive'], 20)
cut('merge_two_spaces', 'arrive\nturn\nfinish  0\n', ['arrive', 'turn'], 21)
cut('merge_a_seventh_slot', 'arrive\n'*7, ['arrive']*6, 25)
head = len(M2) + len(base)
cut('merge_reading_fails_in_a_line', 'arrive\nturn\nfinish 0\n', ['arrive', 'turn'], 'read', fail=head + 7 + 12 + 4, note='A take fails')
cut('merge_reading_fails_at_a_line_feed', 'arrive\nturn\nfinish 0\n', ['arrive'], 'read', fail=head + 7 + 12)
cut('merge_reading_fails_after_a_line', 'arrive\nturn\nfinish 0\n', ['arrive', 'turn'], 'read', fail=head + 7 + 13)
cut('merge_reading_fails_at_the_end', 'arrive\nturn', ['arrive'], 'read', fail=head + 7 + 12)
# before the script
empty = Replay(Sched(M2), one, 1, zero, commit=1, buffer=0).tail()
def none(name, body, ans, line, note=None, fail=None):
    rep(name, M2, one, '', narrow=True, body=body, expect=(ans, empty + [line]), note=note, fail=fail)
bad = base.split('\n')
def with_row(t, r): b = list(bad); b[t] = r; return '\n'.join(b)
none('merge_a_row_is_short', with_row(2, bad[2][:-1]) + 'script\narrive\n', 'Row { line: 14, kind: Short }', 'fault row short line 14', note='A script after a row at fault, and the line `script`')
none('merge_the_last_row_is_long', with_row(5, bad[5] + '0') + 'script\narrive\n', 'Row { line: 17, kind: Long }', 'fault row long line 17')
none('merge_the_last_row_has_no_line_feed', base[:-1], 'Ended { line: 17 }', 'fault ended line 17')
none('merge_a_script_in_place_of_a_row', '\n'.join(bad[:5]) + '\nscript\narrive\n', 'Row { line: 17, kind: Byte }', 'fault row byte line 17')
none('merge_no_script', base, 'Ended { line: 18 }', 'fault ended line 18')
none('merge_script_is_cut', base + 'script', 'Ended { line: 18 }', 'fault ended line 18')
none('merge_another_line_is_due', base + 'scrapt\narrive\n', 'Script { line: 18 }', 'fault script line 18')
none('merge_script_goes_on', base + 'scripts\narrive\n', 'Script { line: 18 }', 'fault script line 18')
none('merge_a_line_is_due_at_once', base + 'arrive\n', 'Script { line: 18 }', 'fault script line 18')
none('merge_reading_fails_in_a_row', base, 'ReadFault', 'fault read', fail=len(M2) + 3)
none('merge_reading_fails_in_script', base + 'script\n', 'ReadFault', 'fault read', fail=head + 3)
# a condition
rc = ['0000100000000000', '00100000000000000', '00000000', '000000000']
rep('a_release_opens_the_slot', C, rc, 'a*2,t,f0,t*3,a*2,t,f1,t*3', note='A condition is released, and its slot may arrive')


def plain(text):
    return text.replace('\\n', '\n').replace('\\r', '\r').replace('\\t', '\t').replace('\\\\', '\\')

def taken(text, answer, last, fail):
    """How many bytes are taken: up to the first that decides."""
    lines = text.split('\n')
    kind = answer.split()[0]
    if kind == 'ReadFault': return fail - 1
    if kind in ('Complete', 'Ended'): return len(text)
    at = int(last.split()[-1]) - 1
    before, line = sum(len(l) + 1 for l in lines[:at]), lines[at]
    if kind == 'Script':
        due = lines[:at].count('rounds') and 'script' not in lines[:at]
        if due: return before + 1 + next(i for i, (x, y) in enumerate(zip(line + '\n', 'script\n')) if x != y)
        return before + (33 if len(line) > 32 else min(len(line) + 1, len(text) - before))
    what = last.split()[2]
    return before + {'short': len(line) + 1, 'long': len(line), 'byte': 1}[what]

HEAD = """# Scripts that are replayed with a predictor that guesses a flip everywhere: what each replay takes, and on
# standard output what it answers and puts. Windows have one slot and no buffer. The expectations are printed by
# bench/replays.py, which plays the scripts by itself.
#
# Lines that begin with # are skipped, and so are empty ones.
#
#   input LINE     adds a line to the input. In it `\\n`, `\\r`, `\\t` and `\\0` are the bytes 10, 13, 9 and 0,
#                  `\\xHH` is any byte, `\\\\` a backslash, and `\\c` at its end takes the line feed away
#   retries N      how often a window may be given up and still be claimed on a guess; 1 without it
#   play NAME      replays the input, and prints what was answered and put
"""

STATUS = {'Complete': 0, 'Row': 3, 'Ended': 4, 'ReadFault': 5, 'Script': 8}
outs, cur = {}, None
for l in OUT:
    if l.startswith('case '): cur = l[5:]; outs[cur] = []
    else: outs[cur].append(l)

def always(word):
    """The replays with the predictor that guesses a flip everywhere."""
    text, how = '', {}
    for l in '\n'.join(IN).split('\n'):
        w, _, rest = l.partition(' ')
        if w == 'input': text = plain(rest[:-2])
        elif w == 'play':
            if how.get('guess') == 'always':
                lines = text.split('\n')
                last = lines.pop()
                if word == 'stdin':
                    print('\n' + '\n'.join(['input ' + x for x in lines] + (['input ' + last + '\\c'] if last else [])))
                    if 'retries' in how: print('retries ' + how['retries'])
                    print('play ' + rest)
                else: print('\n'.join(['case ' + rest] + outs[rest]))
            text, how = '', {}
        elif w and w != '#': how[w] = rest
if sys.argv[1:]:
    if sys.argv[1] == 'stdin': print(HEAD, end='')
    always(sys.argv[1])
    sys.exit()

text, how = '', {}
for l in '\n'.join(IN).split('\n'):
    word, _, rest = l.partition(' ')
    if word == 'input': text = rest[:-2] if rest.endswith('\\c') else rest + '\\n'
    elif word == 'play':
        answer, *lines = outs[rest]
        if how.get('guess') != 'always':
            words = 'replay' + (' --commit 1 --buffer 0' if 'narrow' in how else '')
            words += ' --predict ' + how.get('guess', 'zero') + (' --retries ' + how['retries'] if 'retries' in how else '')
            print('case replay ' + rest.replace('_', ' ') + '\nwords ' + words)
            if 'fail' in how: print('fail take ' + how['fail'])
            put = text.split('\\n')
            if put[-1]: put[-1] += '\\c'
            else: put.pop()
            print('input\n' + '\n'.join(put) + '\nexpect')
            print(f"status {STATUS[answer.split()[0]]} took {taken(plain(text), answer, (lines or [''])[-1], int(how.get('fail', 0)))}")
            print('\n'.join('| ' + x for x in lines) + '\nend\n')
        text, how = '', {}
    elif word and word != '#': how[word] = rest
