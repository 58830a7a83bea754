#!/usr/bin/env python3
"""Tries matbench.roster and matbench.spreadsheets: `spreadsheets.py [TABLES [SEED [PROGRAM]]]`, at
the top of the repository.

Draws small tables of wishes and limits, with and without the columns day, week, kind, must, never,
last, hours and least; makes a roster of each, and compares what it meets, its gain, what it keeps of last
time and what one more place in each limit brings with what is found by trying all plans. Two weeks of more than 500 elements are solved
together. Then it spoils a table in each way of a list, and expects that the package says what is
wrong; saves it in other ways, which have to give the same description; and has the commands read
files that are none of theirs. What is wrong is printed. The last line is `N passed, M failed`, and the status is 1 if
something failed. TABLES is 100 and SEED 1 if they are not given; the program is
crates/mat_main/out/mat_main if none is named.
"""
import collections
import contextlib
import fractions
import io
import itertools
import os
import random
import sys
import tempfile
import time

TOP = os.path.dirname(os.path.dirname(os.path.abspath(__file__)))
SHIFTS = [('1', 'Mon', 'early'), ('1', 'Mon', 'late'), ('1', 'Tue', 'early'), ('2', 'Mon', 'early'),
          ('2', 'Wed', 'Wed late')]
WISHES = 'person,day,shift,gain\nAda,Mon,Mon early,5\nBen,Mon,Mon late,2\n'
LIMITS = 'name,most,least\nMon early,2,1\nMon late,1,\nAda,1,\nBen,1,\n'
#: What is changed in these tables, to what, and a part of what is said of it.
SPOILT = [('gain', 'Gains', 'here it has person, day, shift, gains'),
          (',5', ',', 'there is no gain'), (',5', ',four', "gain is a number, and not 'four'"),
          (',5', ',5,1', 'has 5 cells, more than the first line'),
          ('Ben,Mon,Mon late', 'Ada,Mon,Mon early', 'stands twice'),
          ('Ada,Mon', 'Ada,', 'the wish has no day'),
          ('Ada,Mon', 'Cleo,Mon', "no line says how many at most for the person 'Cleo'"),
          ('Mon late,1,\n', '', "no line says how many at most for the shift 'Mon late'"),
          ('day', 'gain', 'here it has person, gain'),
          ('day', 'must', "must is yes or no, and not 'Mon'. These say yes: yes, y, x"),
          ('day', '', 'column 2 has no head'),
          ('Ben,1,', 'Ada,1,', 'Ada stands twice'),
          ('Ben,1,', 'Ben,,', 'there is no number for Ben'),
          ('Ben,1,', 'Ben,one,', "not 'one'"),
          ('Ben,1,', 'Ben,1,1', 'a least number is for shifts alone'),
          ('least', 'hours', 'hours are for people alone, and Mon early is a shift'),
          ('gain', 'hours', 'here it has person, day, shift, hours'),
          ('early,2,1', 'early,2,3', 'at least 3 are more than at most 2'),
          (',5', ',' + '5' * 5000, 'gain is a number'),
          (',5', ',1000000000001', 'is too large'),
          (',5', ',"1,200"', 'may be thousands or decimals'),
          (',5\nBen,Mon,Mon late,2', ',"5,5"\nBen,Mon,Mon late,2.5', 'in one way'),
          ('Ada', 'A' * 140000, 'field larger than field limit'),
          ('Ada,Mon', '"Ada,Mon', 'unexpected end of data'),
          ('Mon early,2,1', 'Mon early,2,1\nMon,1,1\nMon early', 'stands twice'),
          ('Ada', 'A\0da', '')]
#: How else the tables may be saved, which changes no description.
SAVED = [('a first line that says the sign between the cells', lambda text: 'sep=;\n'
          + text.replace(',', ';')),
         ('tabs between the cells', lambda text: text.replace(',', '\t')),
         ('semicolons', lambda text: text.replace(',', ';')),
         ('an empty last column', lambda text: text.replace('\n', ',\n')),
         ('two empty last columns, and empty lines', lambda text: text.replace('\n', ',,\n,,,,\n')),
         ('a mark of UTF-8 and line ends of Windows',
          lambda text: '\ufeff' + text.replace('\n', '\r\n')),
         ('line ends of old Macs', lambda text: text.replace('\n', '\r')),
         ('line ends and spaces within cells', lambda text: ''.join(
             '"' + it.replace(',', ' ","\n').replace('Mon late', 'Mon\r\nlate') + '"\n'
             for it in text.splitlines())),
         ('each cell in quotes',
          lambda text: ''.join('"' + it.replace(',', '","') + '"\n' for it in text.splitlines()))]
ENCODINGS = ['utf-8-sig', 'utf-16', 'utf-16-le', 'utf-16-be', 'utf-32', 'latin-1']
#: What says yes and no in the column must.
SAYS_YES = ['ja', 'WAHR', 'true', 'oui', 'si', 'x', '1', 'Yes', 'да', '是', 'Tak', '✓']
SAYS_NO = ['nein', 'FALSCH', 'false', 'non', 'no', '0', '', 'нет', '否', '-']


def drawn(numbers):
    """The lines of wishes and of limits."""
    people, shifts = 'ABCD'[: numbers.randint(1, 4)], SHIFTS[: numbers.randint(1, 5)]
    pairs = list(itertools.product(people, shifts))
    marks = [it for it in ('kind', 'must', 'never', 'last') if numbers.random() < 0.4]
    has_hours = numbers.random() < 0.25
    wishes = []
    for person, (week, day, shift) in numbers.sample(pairs, numbers.randint(1, min(9, len(pairs)))):
        row = {'person': person, 'week': week, 'day': day, 'shift': shift,
               'gain': numbers.choice([numbers.randint(-3, 9), numbers.randint(0, 40) / 4])}
        row.update((it, numbers.choice(['yes', ''])) for it in marks)
        row['must'] = '' if row.get('never') else row.get('must', '')
        row.update({'hours': numbers.choice([4, 7.5, 8])} if has_hours else {})
        row['kind'] = numbers.choice(['', 'night', 'senior']) if 'kind' in marks else ''
        wishes.append(row)
    limits = []
    for name in sorted({it['shift'] for it in wishes}):
        most = numbers.randint(0, 3)
        count = numbers.randint(0, 2) if 'kind' in marks else 0
        kinds = numbers.sample(['night', 'senior'], count)
        least = 0 if kinds else numbers.randint(0, most)
        limits.append({'name': name, 'most': most, 'least': least or ''})
        for kind in kinds:
            most = numbers.randint(0, most)
            limits.append({'name': name, 'kind': kind, 'most': numbers.choice([most, most + 1]),
                           'least': numbers.choice([0, most]) if len(kinds) == 1 else ''})
    for name in sorted({it['person'] for it in wishes}):
        limits.append({'name': name, 'most': numbers.randint(0, 4),
                       'week': numbers.choice(['', 1, 2]), 'day': numbers.choice(['', '', 2]),
                       **({'hours': numbers.choice(['', 8, 15, 15.5])} if has_hours else {})})
        if 'kind' in marks and numbers.random() < 0.7:
            limits.append({'name': name, 'kind': 'night', 'most': numbers.randint(0, 2)})
    return wishes, limits


def keeps(plan, limits, raised=('', '', '', None)):
    """Whether a plan keeps all limits, by counting. One may be raised by one place, by its name,
    kind and column, and the week and day of its shift."""
    for limit in limits:
        own = [it for it in plan if limit['name'] in (it['person'], it['shift'])
               and limit.get('kind', '') in ('', it['kind'])]
        by_person = any(it['person'] == limit['name'] for it in own)
        if limit.get('hours', '') != '' and sum(it['hours'] for it in own) > limit['hours']:
            return False
        counts = [('most', lambda it: it['person'] if by_person else (it['week'], it['day'])),
                  ('week', lambda it: it['week']), ('day', lambda it: (it['week'], it['day']))]
        for column, key in counts:
            most = limit.get(column, '')
            if column == 'day' and most == '' and by_person and not limit.get('kind'):
                most = 1
            is_raised = raised[:3] == (limit['name'], limit.get('kind', ''), column)
            if most != '' and any(count > most + (is_raised and raised[3] in (None, place))
                                  for place, count in collections.Counter(map(key, own)).items()):
                return False
    return True


def worth(plan, wishes, limits):
    """What a plan meets of what is needed, its gain, and how few changes it has."""
    met = sum(it['must'] == 'yes' for it in plan)
    for limit in limits:
        for place in {(it['week'], it['day']) for it in wishes if it['shift'] == limit['name']}:
            own = sum((it['week'], it['day']) == place and it['shift'] == limit['name']
                      and limit.get('kind', '') in ('', it['kind']) for it in plan)
            met += min(own, limit.get('least') or 0)
    changes = sum((it['last'] == 'yes') != (it in plan) for it in wishes if 'last' in it)
    return met, sum(fractions.Fraction(it['gain']) for it in plan), -changes


def text_of(rows, numbers):
    """A table as a spreadsheet saves it."""
    heads = list(dict.fromkeys(head for row in rows for head in row))
    delimiter, end = numbers.choice([',', ';', '\t']), numbers.choice(['\n', '\r\n'])
    mark = numbers.choice(['.', ',']) if delimiter != ',' else '.'
    lines = [heads, *([str(row.get(head, '')).replace('.', mark) for head in heads]
                      for row in rows)]
    return ''.join(delimiter.join(line) + end for line in lines)


class Tables:
    """A folder with two tables."""

    def __init__(self, folder, roster):
        self.roster, self.searched = roster, 0
        self.names = [os.path.join(folder, name) for name in ('wishes.csv', 'limits.csv')]

    def request(self, wishes, limits, encoding='utf-8'):
        """What two tables ask for."""
        for name, text in zip(self.names, (wishes, limits)):
            with open(name, 'w', encoding=encoding, newline='') as file:
                file.write(text)
        return self.roster.read_request(*self.names)

    def described(self, wishes, limits, encoding='utf-8'):
        """The description of two tables, or what is said of them."""
        try:
            return self.roster.write_request(self.request(wishes, limits, encoding)).texts[0]
        except self.roster.InputFault as fault:
            return f'fault: {fault}'


def all_of(wishes):
    """All plans of some wishes."""
    return (list(plan) for size in range(len(wishes) + 1)
            for plan in itertools.combinations(wishes, size))


def raised_limits(request):
    """What each limit of a request is called, and which it is."""
    for shift, limit in request.shifts.items():
        yield shift.title, (shift.name, '', 'most', (shift.week, shift.day))
        for kind in limit.kinds:
            yield f'{shift.title}, {kind}', (shift.name, kind, 'most', (shift.week, shift.day))
    for person, limit in request.people.items():
        yield person, (person, '', 'most', None)
        for column in ('week', 'day'):
            if getattr(limit, column) is not None:
                yield f'{person}, in a {column}', (person, '', column, None)
        for kind in limit.kinds:
            yield f'{person}, {kind}', (person, kind, 'most', None)


def wrong_changes(tables, found, valued, limits):
    """What is said wrong of one more place in each limit of a roster."""
    told, known = {it.what: it for it in tables.roster.what_if(found)}, dict(
        raised_limits(found.request))
    if set(told) != set(known):
        yield f'{sorted(told)} are told of, and not {sorted(known)}'
    now = max(value for plan, value in valued if keeps(plan, limits))[:2]
    for what, raised in known.items():
        more = max(value for plan, value in valued if keeps(plan, limits, raised))[:2]
        change = (more[0] - now[0], more[1] - now[1])
        it = told[what]
        if it.is_proved and (it.met, it.gain) != change:
            yield f'one more in {what} brings {it.met} and {it.gain}, and not {change}'
        brings = sum(wish.gain for wish in it.new) - sum(wish.gain for wish in it.dropped)
        if brings != it.gain or bool(it.new or it.dropped) != bool(it.gain or it.met):
            yield f'{what}: {it.new} and {it.dropped} do not bring {it.gain}'


def wrong_seconds(found, valued, wishes, limits):
    """What is said wrong of the second best roster."""
    from matbench.roster import second_rosters
    if not found.answers:
        return
    granted = [wishes[it] for it in found.granted]
    right = max((value for plan, value in valued if plan != granted and keeps(plan, limits)),
                default=None)
    others = [[wishes[at] for at in it.granted] for it in second_rosters(found)]
    told = [worth(plan, wishes, limits) if keeps(plan, limits) else 'no plan' for plan in others]
    if told != ([] if right is None else [right]) or granted in others:
        yield f'{told} is the second best, and not {right}'


def wrong_rows(found, valued, limits):
    """What `one-more` says wrong of the shifts in the description of a roster without kinds, wishes
    that have to be granted, and a last roster."""
    from matbench.one_more import one_more
    from matbench.weights import pair_of
    request = found.request
    is_plain = all(not it.must and it.last is None for it in request.wishes) and not any(
        it.kinds for it in request.shifts.values())
    if not is_plain or not found.answers or all(it.never for it in request.wishes):
        return
    gains = [it for it in one_more(found.written.texts[0], has_least=request.has_demands)[1]
             if it.rule == 1]
    shifts = sorted({it.shift for it in request.wishes if not it.never}, key=lambda it: it.title)
    now = max(value for plan, value in valued if keeps(plan, limits))
    if len(gains) != len(shifts):
        yield f'one-more has {len(gains)} rows for {len(shifts)} shifts'
    for it, shift in zip(gains, shifts):
        raised = shift.name, '', 'most', (shift.week, shift.day)
        more = max(value for plan, value in valued if keeps(plan, limits, raised))
        gain = (more[1] - now[1]) * found.written.scale
        change = (more[0] - now[0], gain) if request.has_demands else (gain, 0)
        limit = request.shifts[shift]
        if (pair_of(it.gain), it.cap, it.least) != (change, limit.most, limit.least):
            yield f'one-more: {it} of {shift.title}, and not {change}'


def is_right(tables, numbers):
    """Whether the best roster of drawn tables is as good as any plan; None where a limit is
    refused, or the roster is not proved best, which limits that cross may leave."""
    wishes, limits = drawn(numbers)
    try:
        request = tables.request(text_of(wishes, numbers), text_of(limits, numbers))
    except tables.roster.InputFault as fault:
        return None if 'more than at most' in str(fault) else tell(wishes, limits, str(fault))
    found = tables.roster.solve(request, seconds=1e6)
    granted = [wishes[it] for it in found.granted]
    free = [it for it in wishes if it.get('never') != 'yes']
    best = max(worth(plan, wishes, limits) for plan in all_of(free) if keeps(plan, limits))
    there = worth(granted, wishes, limits)
    is_told = found.gain == there[1] and (found.changes is None or found.changes == -there[2])
    tables.searched += found.outcome is not None
    if not found.is_best and there <= best and keeps(granted, limits):
        return None
    valued = [(plan, worth(plan, wishes, limits)) for plan in map(list, all_of(free))]
    for what in [*wrong_changes(tables, found, valued, limits),
                 *wrong_seconds(found, valued, wishes, limits),
                 *wrong_rows(found, valued, limits)]:
        return tell(wishes, limits, what)
    if there == best and keeps(granted, limits) and is_told and all(it in free for it in granted):
        return True
    return tell(wishes, limits, f'{best} is best, and not {there}')


def tell(wishes, limits, what):
    """Tells what is wrong with a roster."""
    print(f'{wishes} {limits}: {what}')
    return False


def spoilt_tables(tables):
    """Whether the package says what is wrong with each spoilt table."""
    for old, new, said in SPOILT:
        wishes, limits = WISHES.replace(old, new), LIMITS.replace(old, new)
        note = tables.described(wishes, limits)
        yield (f'{new[:40]!r} in place of {old!r}: {note[:400]!r} does not say {said!r}',
               said in note and note.startswith('fault: '))
    began = time.process_time()
    note = tables.described('person,shift,gain\n' + 'Ada,Mon early,5\n' * 20000, LIMITS)
    yield f'20,000 lines: {note[:400]}', '20,001 lines are too much' in note
    yield '20,000 lines are not refused at once', time.process_time() - began < 1
    many = ''.join(f'Ada,Mon early {it},5\n' for it in range(300))
    rooms = ''.join(f'Mon early {it},2,1\n' for it in range(300))
    note = tables.described('person,shift,gain\n' + many, f'name,most,least\nAda,9,\n{rooms}')
    said = ('there are 300 wishes (a wish of a shift with a least number is two elements: 600 in'
            ' all)')
    yield (f'600 elements: {note[:400]}', said in note and 'give the wishes a column week' in note)


def saved_tables(tables):
    """Whether tables have the same description if they are saved in another way, or say the same in
    other words."""
    must = WISHES.replace('gain', 'gain,must').replace(',5', ',5,yes').replace(',2', ',2,no')
    plain, marked = tables.described(WISHES, LIMITS), tables.described(must, LIMITS)
    yield f'a least number: {plain}', '\nweights 1:5 0:5 0:2\n' in plain
    yield f'a least number, and the column must: {marked}', '\nweights 2:5 1:5 0:2\n' in marked
    for what, saved in SAVED:
        again = tables.described(saved(WISHES), saved(LIMITS))
        yield f'{what}: the description is another one: {again[:300]}', again == plain
    for encoding in ENCODINGS:
        both = [text.replace('Ada', 'Adä') for text in (WISHES, LIMITS)]
        again = tables.described(*both, encoding)
        yield f'{encoding}: the description is another one: {again[:300]}', again == plain
    for told, words in (('yes', SAYS_YES), ('no', SAYS_NO)):
        for word in words:
            said = tables.described(must.replace(f',{told}', f',{word}'), LIMITS)
            yield f'{word!r} does not say {told}: {said[:300]}', said == marked
    yield from other_numbers(tables, plain)


def other_numbers(tables, plain):
    """Whether decimals are scaled, and large limits are taken."""
    scaled = tables.described(WISHES.replace(',5', ',"1.250,5"').replace(',2', ',"-0,25"'), LIMITS)
    yield f'decimals: {scaled[:300]}', '\nweights 1:125050 0:125050 0:-25\n' in scaled
    notes = tables.request(WISHES.replace(',5', ',4.5'), LIMITS).notes
    yield f'decimals are not told: {notes}', 'all are multiplied by 10' in ' '.join(notes)
    long, short = (tables.described(WISHES, LIMITS.replace('Ben,1,', f'Ben,{most},'))
                   for most in ('9' * 5000, '500'))
    yield (f'a limit of 5,000 digits is not one of 500: {long[:400]}',
           long == short and long.startswith('matroids 2\n'))


def names_in_scripts(tables):
    """Whether names in any script have names of ASCII in the description, and are shown."""
    names = ['李娜', 'Ольга', 'Zoë', 'Zoe', 'Ada ' + 'x' * 60, 'p1', '😀', '"; rm', 'A.B']
    wishes = 'person,shift,gain\n' + ''.join(
        '"{}",früh .,{}\n'.format(it.replace('"', '""'), 3) for it in names)
    limits = 'name,most,least\nfrüh .,9,1\n' + ''.join(
        '"{}",1,\n'.format(it.replace('"', '""')) for it in names)
    found = tables.roster.solve(tables.request(wishes, limits))
    text = tables.roster.write_request(found.request).texts[0]
    yield f'a description that is not of ASCII: {text}', text.isascii()
    shown = [tables.roster.words(found), tables.roster.told(found), tables.roster.json_text(found)]
    for name in names:
        word = name.replace('"', '\\"')
        yield (f'{name} is not shown', all(name in it for it in shown[:2]) and word in shown[2])
    picture = tables.roster.picture(found)
    yield 'the picture is none', picture.startswith('<svg ') and '李娜' in picture


def two_weeks(tables):
    """Whether two weeks of more than 500 elements are solved together, within limits over both."""
    numbers = random.Random(3)
    wishes, limits = [], []
    for person in range(20):
        limits.append({'name': f'P{person}', 'most': 3, 'week': 2})
        for week in '12':
            for shift in numbers.sample(range(8), 7):
                wishes.append({'person': f'P{person}', 'week': week, 'day': f'D{shift % 4}',
                               'shift': f'S{shift}', 'gain': numbers.randint(1, 9), 'kind': '',
                               'must': ''})
    limits += [{'name': f'S{shift}', 'most': 3, 'least': 2} for shift in range(8)]
    found = tables.roster.solve(tables.request(text_of(wishes, numbers), text_of(limits, numbers)),
                                seconds=1e6)
    granted = [wishes[it] for it in found.granted]
    yield 'two weeks are not two descriptions', len(found.written.texts) == 2
    yield 'a roster of two weeks breaks a limit', keeps(granted, limits) and max(
        collections.Counter(it['person'] for it in granted).values()) <= 3
    met = worth(granted, wishes, limits)[0]
    yield (f'a roster of two weeks is not proved best, or meets {met} of 32',
           found.is_best and met == 32 and not found.unmet)


def commands(folder):
    """Whether the commands say what is wrong with files that are none of theirs, in one line."""
    from matbench.__main__ import main as run
    paths = {name: os.path.join(folder, name) for name in ('table', 'binary', 'empty', 'folder')}
    os.mkdir(paths['folder'])
    table = 'link,from,to\nroad,Ash,Beck\n'.encode('utf-16')
    for name, content in (('table', table), ('empty', b''), ('binary', bytes(range(256)) * 40)):
        with open(paths[name], 'wb') as file:
            file.write(content)
    cases = [('links', 'nowhere.csv', 'No such file'), ('links', paths['binary'], ''),
             ('links', paths['folder'], 'Is a directory'),
             ('links', paths['empty'], 'nothing in it'),
             ('roster', paths['table'], 'here it has link, from, to'),
             ('roster', 'nowhere.csv', 'No such file'), ('roster', paths['binary'], ''),
             ('names', 'nowhere.txt', 'No such file'), ('names', paths['binary'], ''),
             ('names', paths['table'], 'this is no description')]
    for command, path, said in cases:
        words = [command, path] + ([] if command == 'names' else [path])
        notes = io.StringIO()
        with contextlib.redirect_stderr(notes):
            status = run(words)
        note = notes.getvalue()
        yield (f'{words}: status {status}, {note[:400]!r} does not say {said!r}',
               status == 2 and said in note and note.count('\n') == 1)


def main():
    tables, seed = (int(word) for word in (sys.argv[1:3] + ['100', '1'][len(sys.argv[1:3]):]))
    program = os.path.abspath(sys.argv[3] if len(sys.argv) > 3
                              else os.path.join(TOP, 'crates/mat_main/out/mat_main'))
    if not os.access(program, os.X_OK):
        sys.exit(f'spreadsheets.py: {program}: there is no such program; '
                 './matbench --version puts it there')
    os.environ['MATBENCH_PROGRAM'] = program
    sys.path.insert(0, os.path.join(TOP, 'bindings'))
    from matbench import roster
    numbers = random.Random(seed)
    with tempfile.TemporaryDirectory() as folder:
        made = Tables(folder, roster)
        ended = [is_right(made, numbers) for _ in range(tables)]
        held = [*spoilt_tables(made), *saved_tables(made), *names_in_scripts(made),
                *two_weeks(made), *commands(folder)]
    faults = [what for what, holds in held if not holds]
    print(*faults, sep='\n', end='\n' if faults else '')
    wrong, right = ended.count(False) + len(faults), ended.count(True)
    print(f'{ended.count(None)} tables were refused, or their rosters are not proved best;'
          f' {made.searched} had limits that cross')
    print(f'{right + len(held) - len(faults)} passed, {wrong} failed')
    sys.exit(1 if wrong else 0)


if __name__ == '__main__':
    main()
