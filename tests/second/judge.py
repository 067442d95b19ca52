#!/usr/bin/env python3
"""An outside judge of Find: reads small jobs with what was found for them (as compare_find writes them), enumerates list words and the paths
that they spell straight from the definitions, and asks Python's own regular expressions which of the paths are query paths. It has no automaton.

A star is unrolled as many times as the query has standings. That suffices: after each time round the query has some standing, and where one
comes twice, what lies between can be left out. Where that gives too many paths, only the short ones are looked at."""
import re
import sys
from itertools import combinations, product

MOST_PATHS, LONGEST_PATH = 3000, 12  # of a word, beyond which only short paths are looked at
SHORT = {1: 12, 2: 6, 3: 4}  # by the number of labels: the longest of the short paths
LONGEST_WORD = {0: 0, 1: 5, 2: 4, 3: 3}  # by the number of lists
EMPTY, LABEL, ALTERNATIVE, SEQUENCE, STAR, OPTION = range(6)


class TooMany(Exception):
    pass


# Expressions, from the grammar.

def parse(text, labels):
    """The tree of an expression; a label is a letter, from its number."""
    tokens = re.findall(r'[a-z0-9-]+|[.|*?()]', text)

    def alternative():
        parts = [sequence()]
        while tokens and tokens[0] == '|':
            tokens.pop(0)
            parts.append(sequence())
        return (ALTERNATIVE, parts)

    def sequence():
        parts = [factor()]
        while tokens and tokens[0] == '.':
            tokens.pop(0)
            parts.append(factor())
        return (SEQUENCE, parts)

    def factor():
        token = tokens.pop(0)
        if token != '(':
            tree = (LABEL, chr(ord('a') + labels.index(token)))
        elif tokens[0] == ')':
            tokens.pop(0)
            tree = (EMPTY, None)
        else:
            tree = alternative()
            tokens.pop(0)
        while tokens and tokens[0] in '*?':
            tree = (STAR if tokens.pop(0) == '*' else OPTION, tree)
        return tree

    return alternative()


def pattern(tree):
    """The same as a regular expression of Python."""
    kind, part = tree
    if kind in (EMPTY, LABEL):
        return part or ''
    if kind in (STAR, OPTION):
        return '(?:%s)%s' % (pattern(part), '*' if kind == STAR else '?')
    return '(?:%s)' % ('|' if kind == ALTERNATIVE else '').join(map(pattern, part))


def joined(left, right, longest):
    """Paths put together: those up to a length, or all of them."""
    found = set()
    for u in left:
        found.update(u + v for v in right if longest is None or len(u) + len(v) <= longest)
        if len(found) > MOST_PATHS:
            raise TooMany
    if longest is None and any(len(path) > LONGEST_PATH for path in found):
        raise TooMany
    return found


def paths(tree, times, longest):
    """The paths of an expression, each star unrolled so many times: those up to a length, or all of them."""
    kind, part = tree
    if kind == EMPTY:
        return {''}
    if kind == LABEL:
        return {part}
    if kind == OPTION:
        return {''} | paths(part, times, longest)
    each = [paths(one, times, longest) for one in (part if kind != STAR else [part])]
    if kind == ALTERNATIVE:
        return set().union(*each)
    found = {''}
    if kind == SEQUENCE:
        for more in each:
            found = joined(found, more, longest)
        return found
    for _ in range(times):
        more = found | joined(found, each[0], longest)
        if more == found:
            break
        found = more
    return found


def fronts(tree, longest):
    """What paths begin with, up to a length."""
    kind, part = tree
    if kind == EMPTY:
        return {''}
    if kind == LABEL:
        return {'', part}
    if kind == OPTION:
        return fronts(part, longest)
    if kind == ALTERNATIVE:
        return set().union(*(fronts(one, longest) for one in part))
    if kind == STAR:
        return joined(paths(tree, longest, longest), fronts(part, longest), longest)
    found, before = set(), {''}
    for one in part:
        found |= joined(before, fronts(one, longest), longest)
        before = joined(before, paths(one, longest, longest), longest)
    return found


def marked(tree, names):
    """The same expression with a letter of its own for each occurrence; `names` gets the label of each."""
    kind, part = tree
    if kind == EMPTY:
        return tree
    if kind == LABEL:
        names.append(part)
        return (LABEL, chr(0x100 + len(names)))
    if kind in (STAR, OPTION):
        return (kind, marked(part, names))
    return (kind, [marked(one, names) for one in part])


def standings(query, alphabet, longest):
    """The standing after each short path: the occurrences at which a marked path that begins with it can be. None if there are too many."""
    names = []
    tree = marked(query, names)
    after = {''.join(p): set() for n in range(longest + 1) for p in product(alphabet, repeat=n)}
    try:
        for front in fronts(tree, longest):
            after[''.join(names[ord(m) - 0x101] for m in front)].add(front[-1:])
    except TooMany:
        return None
    after[''] = {'start'}
    return {path: frozenset(places) for path, places in after.items()}


# Jobs.

class Job:
    def __init__(self, lines, told):
        rest = [line.split(' ', 2) for line in lines]
        self.text = '\n'.join(lines)
        labels = [words[1] for words in rest if words[0] == 'label']
        self.alphabet = [chr(ord('a') + n) for n in range(len(labels))]
        self.query = parse(next(line for line in lines if line.startswith('query '))[6:], labels)
        self.lists = [parse(words[2], labels) for words in rest if words[0] == 'list']
        self.standings, self.states = map(int, told[0].split()[1:])
        self.first = tuple(map(int, told[1].split()[1:])) if told[1].startswith('first') else None
        rows = [list(map(int, line.split()[1:])) for line in told[2:]]
        self.flags = [row[0] for row in rows]
        self.table = [row[1:] for row in rows]

    def wrong(self, what):
        print('judge: %s\n%s' % (what, self.text))
        sys.exit(1)

    def words(self):
        for length in range(LONGEST_WORD[len(self.lists)] + 1):
            yield from product(range(len(self.lists)), repeat=length)

    def end(self, word):
        state = 0
        for name in word:
            state = self.table[state][name]
        return state

    def told_apart(self, one, other):
        met, waiting = {(one, other)}, [(one, other)]
        while waiting:
            one, other = waiting.pop()
            if self.flags[one] != self.flags[other]:
                return True
            new = set(zip(self.table[one], self.table[other])) - met
            met |= new
            waiting += new
        return False


def read(file):
    job, told = [], []
    for line in open(file):
        line = line.rstrip('\n')
        if line.split(' ', 1)[0] in ('told', 'first', 'empty', 'row'):
            told.append(line)
            continue
        if told:
            yield Job(job, told)
            job, told = [], []
        job.append(line)
    if told:
        yield Job(job, told)


class Judge:
    def __init__(self, job, tally):
        self.job, self.tally = job, tally
        self.query = re.compile(pattern(job.query))
        self.short = SHORT[len(job.alphabet)]
        self.known = {}
        self.languages = {}

    def is_query_path(self, path):
        if path not in self.known:
            self.known[path] = self.query.fullmatch(path) is not None
        return self.known[path]

    def language(self, name, longest):
        if (name, longest) not in self.languages:
            times = self.job.standings if longest is None else longest
            self.languages[name, longest] = paths(self.job.lists[name], times, longest)
        return self.languages[name, longest]

    def spelled(self, word):
        """What a word spells, and whether that is enough to decide on it."""
        for longest in (None, self.short):
            try:
                found = {''}
                for name in word:
                    found = joined(found, self.language(name, longest), longest)
                return found, longest is None
            except TooMany:
                pass
        return set(), False

    def standings(self):
        job = self.job
        after = standings(job.query, job.alphabet, self.short)
        if after is None:
            return None
        for path, places in after.items():
            if self.is_query_path(path) and not places:
                job.wrong('no standing after the query path %s' % path)
        met = set(after.values())
        if len(met) > job.standings:
            job.wrong('%d standings, told %d' % (len(met), job.standings))
        if met == {places for path, places in after.items() if len(path) < self.short}:
            self.tally['standings counted'] += 1
            if len(met) != job.standings:
                job.wrong('%d standings, told %d' % (len(met), job.standings))
        return after

    def judge(self):
        job, tally, after = self.job, self.tally, self.standings()
        if len(job.flags) != job.states or any(n >= job.states for row in job.table for n in row):
            job.wrong('the table has other states than are told')
        met, first, sets = 0, None, {}
        for word in job.words():
            state = job.end(word)
            # States are numbered in the order of the words that first reach them.
            if state > met:
                job.wrong('%s ends at %d, and %d was not met' % (word, state, met))
            met = max(met, state + 1)
            found, all_of_them = self.spelled(word)
            sound = all(map(self.is_query_path, found))
            if job.flags[state] and not sound or all_of_them and sound and not job.flags[state]:
                job.wrong('%s has the flag %d' % (word, job.flags[state]))
            kind = 'accepted' if sound and all_of_them else 'refuted' if not sound else 'open'
            tally[kind] += 1
            if job.flags[state] and first is None:
                first = word
            # Two words have one state if the standings after what they spell are the same.
            if all_of_them and after is not None and max(map(len, found)) <= self.short:
                standings_after = frozenset(after[path] for path in found)
                if sets.setdefault(standings_after, state) != state:
                    job.wrong('%s ends at %d, not at %d' % (word, state, sets[standings_after]))
                tally['states compared'] += 1
        # And two states are never one: some word that goes on from both is accepted from one of them alone.
        for one, other in combinations(range(job.states), 2):
            if not job.told_apart(one, other):
                job.wrong('no word tells %d from %d' % (one, other))
            tally['states told apart'] += 1
        if first is not None and first != job.first:
            job.wrong('the first word is %s, told %s' % (first, job.first))
        if job.first is None and any(job.flags) or job.first is not None and not job.flags[job.end(job.first)]:
            job.wrong('first is told as %s' % (job.first,))


def main():
    tally = dict.fromkeys(('accepted', 'refuted', 'open', 'standings counted', 'states compared', 'states told apart'), 0)
    jobs = 0
    for job in read(sys.argv[1]):
        Judge(job, tally).judge()
        jobs += 1
    print('judge: words ' + ', '.join('%s %d' % (kind, count) for kind, count in tally.items()))
    words = tally['accepted'] + tally['refuted'] + tally['open']
    assert jobs >= 300 and tally['accepted'] >= 500 and tally['refuted'] >= 1000, 'too few of a kind'
    assert tally['open'] * 10 <= words and tally['standings counted'] >= 150, 'too many left open'
    print('judge: %d jobs, 0 differences' % jobs)


main()
