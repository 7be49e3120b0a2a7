#!/usr/bin/env python3
"""Writes a script for spool to standard output, its profile to standard error.

usage: workload.py [LINES [EXTENTS [SEED]]]        (default: 1000000 500 1)

The script builds a comb of about EXTENTS free extents (2 to 1000) and then
mixes calls that keep their number there. A model of the allocator runs along,
so that nearly all lines are accepted. The same arguments give the same script:
only random() of Random(seed) is drawn, which Python promises not to change.
"""

import sys
from bisect import bisect_left, insort
from collections import Counter
from itertools import islice
from random import Random

SIZE = 67_000_000       # somewhat below the limit, so that `no 5` can occur
LIMIT = 67_108_864
MAX_EXTENTS = 1_023
MAX_WORDS = 4_096
MAX_RUN = 32_768
CONDENSE = 2_000        # condense after about so many logged words
FILL_EVERY = 40         # one in so many condenses waits until the log is full
FILL_REFUSALS = 10      # and until so many lines were refused for it
REOPEN = 50_000         # reopen every so many lines
FIGURES = 0.02          # share of q lines
REFUSED = 0.005         # share of lines that are meant to be refused
BAD_LINES = ('', 'a', 'a  5', 'a 5 ', 'a 12345678901', 'a -1', 'f 1', 'f 1 2 3', 'c 1',
             'q\r', 'x', 'A 5', 's 100', 'a 5' + ' ' * 70, '0' * 65)


def words_of(length):
    return -(-length // MAX_RUN)


class Model:
    """The free extents, the number of logged words and the pieces in use."""

    def __init__(self, size):
        self.size = size
        self.free = {0: size}       # start -> length
        self.ends = {size: 0}       # end -> start
        self.starts = [0]           # rising
        self.lengths = [size << 32]  # length << 32 | start, rising
        self.words = 0              # in the log
        self.logged = 0             # since the last condense
        self.used = {}              # start -> length of the pieces in use
        self.pieces = []            # their starts, in no order
        self.places = {}            # start -> its index in pieces
        self.refusals = Counter()

    def add_extent(self, start, length):
        self.free[start] = length
        self.ends[start + length] = start
        insort(self.starts, start)
        insort(self.lengths, length << 32 | start)

    def drop_extent(self, start):
        length = self.free.pop(start)
        del self.ends[start + length]
        del self.starts[bisect_left(self.starts, start)]
        del self.lengths[bisect_left(self.lengths, length << 32 | start)]
        return length

    def add_piece(self, start, length):
        self.used[start] = length
        self.places[start] = len(self.pieces)
        self.pieces.append(start)

    def drop_piece(self, start):
        place = self.places.pop(start)
        last = self.pieces.pop()
        if last != start:
            self.pieces[place] = last
            self.places[last] = place
        return self.used.pop(start)

    def log(self, length):
        """Logs the words of a run; False if the log has no room for them."""
        words = words_of(length)
        if self.words + words > MAX_WORDS:
            self.refusals[9] += 1
            return False
        self.words += words
        self.logged += words
        return True

    def allocate(self, want):
        place = bisect_left(self.lengths, want << 32)
        if place == len(self.lengths):
            self.refusals[6] += 1
        elif self.log(want):
            start = self.lengths[place] & 0xffff_ffff
            length = self.drop_extent(start)
            if length > want:
                self.add_extent(start + want, length - want)
            self.add_piece(start, want)

    def release(self, piece, start, length):
        """Frees sectors in use; they begin in `piece` and may go beyond it."""
        end = start + length
        left = self.ends.get(start)
        right = end in self.free
        if len(self.free) + 1 - (left is not None) - right > MAX_EXTENTS:
            self.refusals[8] += 1
            return
        if not self.log(length):
            return
        while piece < end:
            piece_end = piece + self.drop_piece(piece)
            if piece < start:
                self.add_piece(piece, start - piece)
            if piece_end > end:
                self.add_piece(end, piece_end - end)
            piece = piece_end
        if right:
            length += self.drop_extent(end)
        if left is not None:
            length += self.drop_extent(left)
            start = left
        self.add_extent(start, length)

    def condense(self):
        used = self.words = self.logged = 0
        for start in self.starts:
            self.words += words_of(start - used)
            used = start + self.free[start]
        self.words += words_of(self.size - used)


class Script:
    def __init__(self, extents, seed):
        self.random = Random(seed).random
        self.model = Model(SIZE)
        self.extents = extents
        self.band = extents // 250          # no steering this near to extents
        self.pieces = 2 * extents           # wanted number of pieces in use
        self.condenses = 0
        self.steady = False                 # the comb stands

    def below(self, bound):
        return int(self.random() * bound)

    def small(self):
        """1 to 4,096 sectors, every order of magnitude as likely."""
        return 1 + self.below(1 << self.below(13))

    def number(self, value):
        """Now and then with leading zeros, which are allowed."""
        return f'{value:010}' if self.random() < 0.002 else str(value)

    def allocate(self, want):
        self.model.allocate(want)
        return f'a {self.number(want)}'

    def release(self, piece, start, length):
        self.model.release(piece, start, length)
        return f'f {self.number(start)} {self.number(length)}'

    def lines(self):
        yield f's {SIZE}'
        yield from self.comb()
        self.steady = True
        count = 1
        while True:
            count += 1
            dice = self.random()
            if count % REOPEN == 0:
                yield 'r'
            elif self.condense_due():
                self.condenses += 1
                self.model.condense()
                yield 'c'
            elif dice < FIGURES:
                yield 'q'
            elif dice < FIGURES + REFUSED:
                yield self.refused()
            else:
                lack = (self.pieces - len(self.model.pieces)) / self.pieces
                if self.random() < 0.5 + lack:
                    yield self.some_allocate()
                else:
                    yield self.some_release()

    def condense_due(self):
        model = self.model
        if self.condenses % FILL_EVERY == FILL_EVERY - 1:
            return model.refusals[9] >= FILL_REFUSALS * (1 + self.condenses // FILL_EVERY)
        return model.logged >= CONDENSE

    def comb(self):
        """Pieces in use with gaps between them; the gaps are freed at random.

        It logs four words for each extent, for which the empty log has room.
        """
        model = self.model
        gaps = []
        for _ in range(self.extents - 1):
            yield self.allocate(self.small())
            gaps.append(model.starts[-1])
            yield self.allocate(self.small())
            yield self.allocate(self.small())
        while gaps:
            place = self.below(len(gaps))
            gaps[place], gaps[-1] = gaps[-1], gaps[place]
            start = gaps.pop()
            yield self.release(start, start, model.used[start])

    def some_allocate(self):
        """An exact fit takes an extent away, any other leaves their number."""
        model = self.model
        surplus = len(model.starts) - self.extents
        if surplus > self.band and self.random() < 0.5:
            # The last extent is the long rest of the slab: never fit that.
            start = model.starts[self.below(len(model.starts) - 1)]
            if len(model.starts) > 1:
                return self.allocate(model.free[start])
        if self.random() < 0.01:
            return self.allocate(MAX_RUN + 1 + self.below(5 * MAX_RUN))
        return self.allocate(self.small())

    def some_release(self):
        """Whole pieces, parts of them, and runs across some of them."""
        model = self.model
        surplus = len(model.starts) - self.extents
        for _ in range(6):
            start = model.pieces[self.below(len(model.pieces))]
            length = model.used[start]
            touching = (start in model.ends) + (start + length in model.free)
            if surplus > self.band and touching or surplus < -self.band and not touching:
                break
            if -self.band <= surplus <= self.band:
                break
        dice = self.random()
        if length > 1 and dice < 0.25:
            part = 1 + self.below(length - 1)
            place = self.below(3)           # its head, its tail or a middle
            offset = (0, length - part, self.below(length - part + 1))[place]
            return self.release(start, start + offset, part)
        if dice > 0.92:
            end = start + length
            for _ in range(1 + self.below(2)):
                end += model.used.get(end, 0)
            offset = self.below(length) if self.random() < 0.5 else 0
            return self.release(start, start + offset, end - start - offset)
        return self.release(start, start, length)

    def refused(self):
        """A line that is refused for sure, with each reason as likely."""
        model = self.model
        kind = (2, 4, 5, 6, 7, 12)[self.below(6)]
        model.refusals[kind] += 1
        start = model.starts[self.below(len(model.starts))]
        if kind == 2:
            if self.random() < 0.5:
                return f'f {start} 0'
            return f'f {start} {LIMIT - start + 1 + self.below(1000)}'
        if kind == 4:
            return 'a 0'
        if kind == 5:
            return f'f {start} {SIZE - start + 1 + self.below(1000)}'
        if kind == 6:
            return f'a {(model.lengths[-1] >> 32) + 1 + self.below(1000)}'
        if kind == 7:
            before = self.below(2) if start else 0
            return f'f {start - before} {before + 1 + self.below(model.free[start])}'
        return BAD_LINES[self.below(len(BAD_LINES))]


def main():
    arguments = [int(argument) for argument in sys.argv[1:]]
    lines, extents, seed = arguments + [1_000_000, 500, 1][len(arguments):]
    if lines < 1 or not 2 <= extents <= 1000:
        sys.exit('workload.py: LINES must be at least 1, EXTENTS 2 to 1000')
    script = Script(extents, seed)
    kinds = Counter()
    stood = Counter()               # number of free extents -> lines
    write = sys.stdout.write
    for line in islice(script.lines(), lines):
        write(line + '\n')
        kinds['against the form' if line in BAD_LINES else line[0]] += 1
        if script.steady:
            stood[len(script.model.starts)] += 1

    refusals = script.model.refusals
    refused = sum(refusals.values())
    report = [f'workload: {lines} lines, seed {seed}',
              'kinds: ' + ', '.join(
                  f'{kind} {kinds[kind]}' for kind in [*'safcqr', 'against the form']),
              f'refused: {refused} ({100 * refused / lines:.2f} %): ' + ', '.join(
                  f'no {kind} {count}' for kind, count in sorted(refusals.items()))]
    if stood:
        mean = sum(count * times for count, times in stood.items()) / sum(stood.values())
        report.append(f'free extents once the comb stands: '
                      f'min {min(stood)}, mean {mean:.1f}, max {max(stood)}')
    print(*report, sep='\n', file=sys.stderr)


main()
