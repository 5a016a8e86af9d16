#!/usr/bin/env python3
"""Draws tools/calls.txt: single calls of states, from runs of the crate's own code.

usage: tools/calls.py TRACE PROGRAM

TRACE has each run that was traced: a line with the fields of a case of a text or a string, and then a line for each call, with tabs between the
state, the place, the scratch fields that are not at rest, and what src/main.rt prints of a call; an empty line ends the run. PROGRAM is this
crate's program, as it is built. Of each state it takes calls that both answer alike, spread over what they answer; and some that this repository
answers otherwise, which has to be a state of tools/states.txt. A call that the run here does not come to, or not with the same fields or after as many events, is left out.

Then tools/data.py makes cases of them."""
import collections, os, random, re, subprocess, sys

HERE = os.path.dirname(os.path.dirname(os.path.abspath(__file__)))
ALIKE, OTHERWISE, LONGEST = 26, 4, 640


def reasons():
    """The states that answer or leave something else, and why."""
    lines = open(os.path.join(HERE, 'tools', 'states.txt'), encoding='utf-8').read().split('\n')
    return dict(line.split(': ', 1) for line in lines if line and not line.startswith('#'))


def traced(path):
    """The calls of each run, each with the fields of its case: a call once in a run."""
    for run in open(path, encoding='utf-8', newline='').read().split('\n\n'):
        kind, *lines = run.split('\n')
        kind, *fields = kind.split('\t')
        seen = set()
        for state, at, before, found in (line.split('\t') for line in lines if line):
            if (state, at, before) not in seen:
                seen.add((state, at, before))
                case = ['state=' + state, 'at=' + at, 'fields=' + before] + fields
                yield state, '\t'.join([kind + '-call'] + case), found


def later(found, case):
    """What is found, at the next piece's start where it is at the end of one: there it is the same place."""
    pieces = [part.split('-') for part in re.findall(r'\tpiece=(\S+)', case)]
    for (_, end), (start, _) in zip(pieces, pieces[1:]):
        found = found.replace(' at %s' % end, ' at %s' % start, 1) if re.search(r' at %s[ ;]' % re.escape(end), found) else found
    return found


def weight(case):
    """Its length, or less where a piece begins in a tab."""
    return len(case) * (0.65 if re.search(r'\tpiece=\d+\.[123]', case) else 1)


def spread(calls, count, throw):
    """So many calls, in turn of each kind of answer, the shorter ones first, and those of pieces that begin in a tab."""
    kinds = collections.defaultdict(list)
    for call in calls:
        kinds[re.sub(r'[\d.]+', '', call[1])].append(call)
    rows = [sorted(kind, key=lambda call: weight(call[0]) * throw.uniform(1, 2)) for kind in kinds.values()]
    turns = [row[at] for at in range(count) for row in rows if at < len(row)]
    return turns[:count]


def main():
    why, throw = reasons(), random.Random(1)
    calls = [call for call in traced(sys.argv[1]) if len(call[1]) + len(call[2]) < LONGEST]
    run = subprocess.run([sys.argv[2]], input=''.join(case + '\n' for _, case, _ in calls), capture_output=True, text=True, encoding='utf-8')
    alike, otherwise = collections.defaultdict(list), collections.defaultdict(list)
    for (state, case, found), line in zip(calls, run.stdout.split('\n')):
        here = line[line.index(' '):]
        if here in (' not reached', ' no content'):
            continue
        if here in (found, later(found, case)):
            alike[state].append((case, here))
        elif re.sub(r'end=\d+', '', here) != re.sub(r'end=\d+', '', found):
            otherwise[state].append((case, here, found))
    unknown = sorted(set(otherwise) - set(why))
    if unknown:
        sys.exit('not in tools/states.txt: ' + ' '.join('%s %s' % (state, otherwise[state][0]) for state in unknown))
    with open(os.path.join(HERE, 'tools', 'calls.txt'), 'w', encoding='utf-8', newline='') as file:
        file.write('# Drawn by tools/calls.py. A line is a case, and what the crate answers; then, where that differs, what is answered here.\n')
        for state in sorted(set(alike) | set(otherwise)):
            file.write('\n== %s\n' % state + ('# Differs: %s\n' % why[state] if state in otherwise else ''))
            for case, here in spread(alike[state], ALIKE, throw):
                file.write('%s\tcrate=%s\n' % (case.replace('\tstate=' + state, '', 1), here))
            for case, here, found in spread(otherwise[state], OTHERWISE, throw):
                file.write('%s\tcrate=%s\there=%s\n' % (case.replace('\tstate=' + state, '', 1), found, here))
    few = ['%s %d' % (state, len(alike[state])) for state in sorted(set(alike) | set(otherwise)) if len(alike[state]) < 10]
    print('%d states; fewer than 10 alike: %s' % (len(set(alike) | set(otherwise)), ', '.join(few)))


if __name__ == '__main__':
    main()
