"""Prints the best of each job, the ratios and the goals, as a table; and as another how each job grows."""
import sys

# `floor` has figures for `get` and `mutate` alone, `spins` one for the pauses.
BASELINES = ['floor', 'locked', 'persistent', 'concread', 'spins']
PEERS = ['locked', 'persistent', 'concread']

# What the two numbers of a job are, where they aren't keys and pending mutations.
NUMBERS = {
    'mutate_seats': ('keys', 'seats'),
    'clients_in_turn': ('keys', 'clients'),
    'mutate_threads': ('keys', 'threads'),
    'open': ('slots', ''),
    'full': ('slots', ''),
    'reserve_pull': ('slots', 'puts'),
}

# What a job is to take: (job, keys, pending), the baseline and the most that the ratio to it may be. Where more is
# better, a job's last unit is 'a second', and the ratio is the least.
GOALS = [
    (('get', '100000', '0'), 'locked', 1.25),
    (('get', '100000', '0'), 'persistent', 0.85),
    (('mutate', '100000', '0'), 'locked', 2.2),
    (('mutate', '100000', '0'), 'persistent', 0.45),
    (('mutate', '100000', '0'), 'concread', 1.1),
    (('mutate', '100000', '1000'), ('mutate', '100000', '0'), 1.05),
    (('mutate_seats', '100000', '256'), ('mutate', '100000', '0'), 1.05),
    (('pull', '10000', '0'), 'persistent', 0.42),
    (('pull', '100000', '0'), 'locked', 0.17),
    (('rebase', '100000', '1000'), 'persistent', 1.6),
    (('scan', '100000', '0'), 'locked', 0.95),
    (('push', '100000', '1000'), 'locked', 0.8),
    (('read', '10000', '0'), 'locked', 0.3),
    (('readers_gets', '100000', '200'), 'concread', 1.0),
    (('readers_mutations', '100000', '200'), 'concread', 1.2),
    (('readers_pause_999', '100000', '200'), 'spins', 1.5),
]


def read(lines):
    """The best value of each job and variant, the unit of each job, and the jobs in order."""
    best, units = {}, {}
    for line in lines:
        job, variant, keys, pending, value, unit = line.rstrip('\n').split('\t')
        at = (job, keys, pending)
        better = max if unit == 'a second' else min
        value = int(value)
        units[at] = unit
        best[at, variant] = better(best.get((at, variant), value), value)
    return best, units


def shown(value, unit):
    if value is None:
        return '-'
    if unit == 'a second':
        return f'{value:,}'
    if value >= 1_000_000_000:
        return f'{value / 1_000_000_000:.1f} s'
    if value >= 1_000_000:
        return f'{value / 1_000_000:.1f} ms'
    if value >= 10_000:
        return f'{value / 1_000:.1f} us'
    return f'{value:,} ns'


def ratio(best, at, other):
    ours = best.get((at, 'group'))
    theirs = best.get((other, 'group')) if isinstance(other, tuple) else best.get((at, other))
    return None if not ours or not theirs else ours / theirs


def told(best, unit, at, other, goal):
    value = ratio(best, at, other)
    name = f'{other[0]} {other[2]}' if isinstance(other, tuple) else other
    met = value is not None and (value >= goal if unit == 'a second' else value <= goal)
    return f'{goal} x {name}: {"met" if met else "short"}' + (
        f' ({value:.2f})' if value and (isinstance(other, tuple) or other == 'spins') else '')


def rows_over(units):
    """The rows of each job that differ in one number alone, by the job and what the number is; or its one row."""
    found = {}
    for at in units:
        for place, what in enumerate(NUMBERS.get(at[0], ('keys', 'pending'))):
            found.setdefault((at[0], what, at[2 - place]), []).append((int(at[1 + place]), at))
    grow = {key[0] for key, rows in found.items() if len(rows) > 1}
    return {key: sorted(rows) for key, rows in found.items()
            if len(rows) > 1 or (key[0] not in grow and key[1] in ('keys', 'slots'))}


def short(value, unit):
    """Three digits of a time in microseconds, or of a number a second."""
    if value is None:
        return '-'
    number = float(f'{value if unit == "a second" else value / 1_000:.3g}')
    return f'{number:,.0f}' if number >= 100 else f'{number:g}'


def print_growth(best, units):
    heads = ['Job', *PEERS, 'group']
    print('Times in microseconds; `mutate_threads` and `readers` a second.\n')
    print('| ' + ' | '.join(heads) + ' |')
    print('|---' * len(heads) + '|')
    for (job, what, _), rows in rows_over(units).items():
        cells = [f'{job}, ' + '/'.join(f'{size:,}' for size, _ in rows) + f' {what}']
        for variant in (*PEERS, 'group'):
            values = [short(best.get((at, variant)), units[at]) for _, at in rows]
            cells.append('/'.join(values) if any(value != '-' for value in values) else '-')
        print('| ' + ' | '.join(cells) + ' |')


def print_table(best, units):
    heads = ['Job', 'Keys', 'Pending', *BASELINES, 'group', *(f'to {name}' for name in PEERS), 'Goals']
    print('| ' + ' | '.join(heads) + ' |')
    print('|---' * len(heads) + '|')
    for at, unit in units.items():
        values = [best.get((at, variant)) for variant in (*BASELINES, 'group')]
        ratios = [ratio(best, at, other) for other in PEERS]
        goals = [told(best, unit, at, other, goal) for where, other, goal in GOALS if where == at]
        cells = [at[0], f'{int(at[1]):,}', f'{int(at[2]):,}'] + [shown(value, unit) for value in values]
        cells += ['-' if value is None else f'{value:.2f}' for value in ratios] + ['; '.join(goals)]
        print('| ' + ' | '.join(cells) + ' |')


def main():
    best, units = read(sys.stdin)
    print_table(best, units)
    print()
    print_growth(best, units)


main()
