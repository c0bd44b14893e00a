#!/usr/bin/env python3
"""The three games once more, from docs/GAMES.md alone, to hold the proved ones against.

    games.py cases [GAME ..]    games to play, one to a line, always the same ones
    games.py expect             reads such lines, and writes what must be said of them

GAME is nim, connect-four or gomoku; without one, all three. Standard library only.
"""

import sys
from functools import lru_cache

FIRST, SECOND = 0, 1
WORDS = ("first", "second")
SEED = 20240607


def other(side):
    return 1 - side


# ---- the rules


class Illegal(Exception):
    """A code that may not be made."""


class Refused(Exception):
    """Settings out of range."""


def windows(columns, rows, length):
    """Every straight line of so many cells on the board, by walking from each cell in four directions."""
    found = []
    for column in range(columns):
        for row in range(rows):
            for right, up in ((0, 1), (1, 0), (1, 1), (1, -1)):
                line = [(column + right * k, row + up * k) for k in range(length)]
                if all(0 <= c < columns and 0 <= r < rows for c, r in line):
                    found.append(line)
    return found


class Board:
    """Stones on a board, and for each window how many of each side lie in it."""

    def __init__(self, columns, rows, length, count):
        self.columns, self.rows, self.length = columns, rows, length
        self.lines = windows(columns, rows, length)
        assert len(self.lines) == count
        self.through = {}
        for number, line in enumerate(self.lines):
            for cell in line:
                self.through.setdefault(cell, []).append(number)
        self.stones = {}
        self.turn = FIRST
        self.held = [[0, 0] for _ in self.lines]
        self.winner = None

    def cell_of(self, code):
        raise NotImplementedError

    def make(self, code):
        if self.status() != "open":
            raise Illegal
        cell = self.cell_of(code)
        if cell is None or cell in self.stones:
            raise Illegal
        self.stones[cell] = self.turn
        for number in self.through[cell]:
            self.held[number][self.turn] += 1
            if self.held[number][self.turn] == self.length:
                self.winner = self.turn
        self.turn = other(self.turn)

    def status(self):
        if self.winner is not None:
            return WORDS[self.winner]
        return "drawn" if len(self.stones) == self.columns * self.rows else "open"

    def chance(self, side):
        return any(count[other(side)] == 0 for count in self.held)

    def legal_codes(self):
        raise NotImplementedError

    def wins_at(self, code):
        """Whether the side to move would win by this legal code."""
        cell = self.cell_of(code)
        return any(self.held[number][self.turn] == self.length - 1 for number in self.through[cell])


class ConnectFour(Board):
    CODES = 7

    def __init__(self):
        super().__init__(7, 6, 4, 69)

    def cell_of(self, code):
        if code >= 7:
            return None
        for row in range(6):
            if (code, row) not in self.stones:
                return (code, row)
        return None

    def legal_codes(self):
        if self.status() != "open":
            return []
        return [code for code in range(7) if self.cell_of(code) is not None]


class Gomoku(Board):
    CODES = 225

    def __init__(self):
        super().__init__(15, 15, 5, 572)

    def cell_of(self, code):
        return (code % 15, code // 15) if code < 225 else None

    def legal_codes(self):
        if self.status() != "open":
            return []
        return [code for code in range(225) if self.cell_of(code) not in self.stones]


def takings(heaps):
    """What the heaps can be after one move, whoever makes it."""
    for heap, size in enumerate(heaps):
        for left in range(size):
            yield heaps[:heap] + (left,) + heaps[heap + 1:]


@lru_cache(maxsize=None)
def winners(heaps):
    """The sides for which some series wins, by trying them all: 0 for the one to move, 1 for the other."""
    if sum(heaps) == 0:
        return frozenset([1])
    found = set()
    for rest in takings(heaps):
        found |= {1 - side for side in winners(rest)}
    return frozenset(found)


class Nim:
    CODES = 256

    def __init__(self, heaps):
        if not 1 <= len(heaps) <= 8 or any(not 1 <= size <= 31 for size in heaps):
            raise Refused
        self.heaps = list(heaps)
        self.turn = FIRST

    def make(self, code):
        heap, take = code // 32, code % 32
        if heap >= len(self.heaps) or take < 1 or take > self.heaps[heap]:
            raise Illegal
        self.heaps[heap] -= take
        self.turn = other(self.turn)

    def status(self):
        return "open" if any(self.heaps) else WORDS[other(self.turn)]

    def chance(self, side):
        filled = sum(1 for size in self.heaps if size > 0)
        if sum(self.heaps) > filled:
            answer = True
        else:
            answer = side == (self.turn if filled % 2 == 1 else other(self.turn))
        sizes = tuple(sorted(size for size in self.heaps if size > 0))
        space = 1
        for size in sizes:
            space *= size + 1
        if space <= 300:
            # a small position: every series is tried
            assert answer == ((0 if side == self.turn else 1) in winners(sizes)), self.heaps
        return answer

    def legal_codes(self):
        return [32 * heap + take for heap, size in enumerate(self.heaps) for take in range(1, size + 1)]


# ---- what must be said


def open_game(head):
    name, numbers = head[0], [int(word) for word in head[1:]]
    if name == "nim":
        return Nim(numbers)
    return {"connect-four": ConnectFour, "gomoku": Gomoku}[name]()


def say(word, game):
    first, second = game.chance(FIRST), game.chance(SECOND)
    chances = {(True, True): "both", (True, False): "first", (False, True): "second", (False, False): "none"}
    return f"{word} {game.status()} {chances[(first, second)]}"


def expected(line):
    head, codes = line.split(":")
    try:
        game = open_game(head.split())
    except Refused:
        return ["refused 10"]
    said = [say("start", game)]
    for code in codes.split():
        try:
            game.make(int(code))
            word = "legal"
        except Illegal:
            word = "illegal"
        said.append(say(word, game))
    return said


# ---- games to play


class Dice:
    """A small generator of our own, so that the games never depend on Python's."""

    def __init__(self, seed):
        self.state = seed

    def below(self, bound):
        self.state = (self.state + 0x9E3779B97F4A7C15) % 2**64
        z = self.state
        z = (z ^ (z >> 30)) * 0xBF58476D1CE4E5B9 % 2**64
        z = (z ^ (z >> 27)) * 0x94D049BB133111EB % 2**64
        return (z ^ (z >> 31)) % bound

    def between(self, low, high):
        return low + self.below(high - low + 1)

    def one_of(self, things):
        return things[self.below(len(things))]


def illegal_code(dice, game):
    """Some code that may not be made now: near the legal ones, just past them, or far off."""
    legal = set(game.legal_codes())
    while True:
        kind = dice.below(4)
        if kind == 0:
            code = dice.below(game.CODES)
        elif kind == 1:
            code = dice.between(game.CODES, game.CODES + 40)
        elif kind == 2:
            code = dice.one_of((65534, 65535, 32768, 256, 224, 225, 255))
        else:
            code = dice.below(65536)
        if code not in legal:
            return code


def played(dice, game, choose, illegal_in):
    """Codes to the end of a game by a way to choose, one in so many illegal, and two after the end."""
    codes = []
    while game.status() == "open":
        if dice.below(illegal_in) == 0:
            codes.append(illegal_code(dice, game))
            continue
        code = choose(dice, game)
        game.make(code)
        codes.append(code)
    codes += [illegal_code(dice, game), illegal_code(dice, game)]
    return codes


def any_code(dice, game):
    return dice.one_of(game.legal_codes())


def shuffled(dice, things):
    left, mixed = list(things), []
    while left:
        mixed.append(left.pop(dice.below(len(left))))
    return mixed


def full_board(dice):
    """All cells of Connect Four in a pattern without a line of three, in some order that the columns allow."""
    while True:
        heights, codes = [0] * 7, []
        while len(codes) < 42:
            side = len(codes) % 2
            fitting = [c for c in range(7) if heights[c] < 6 and (c // 2 + heights[c]) % 2 == side]
            if not fitting:
                break
            code = dice.one_of(fitting)
            heights[code] += 1
            codes.append(code)
        else:
            return codes


def full_grid(dice):
    """All points of Gomoku in a pattern without a line of three, each side's in some order."""
    points = [[], []]
    for code in range(225):
        points[(code % 15 // 2 + code // 15) % 2].append(code)
    firsts, seconds = (shuffled(dice, side) for side in points)
    return [code for pair in zip(firsts, seconds + [None]) for code in pair if code is not None]


def following(codes):
    """A way to choose: these codes in turn."""
    left = iter(codes)
    return lambda dice, game: next(left)


def clustered(dice, game):
    """A free point near some stone, mostly; the middle at first."""
    if not game.stones:
        return 112 + dice.between(-2, 2) + 15 * dice.between(-2, 2)
    near = []
    for code in game.legal_codes():
        column, row = game.cell_of(code)
        if any((column + x, row + y) in game.stones for x in (-1, 0, 1) for y in (-1, 0, 1)):
            near.append(code)
    winning = [code for code in near if game.wins_at(code)]
    if winning and dice.below(2) == 0:
        return dice.one_of(winning)
    return dice.one_of(near or game.legal_codes())


def in_rows(dice, game):
    """Mostly next to a stone of one's own, so that lines grow."""
    mine = []
    for code in game.legal_codes():
        column, row = game.cell_of(code)
        if any(game.stones.get((column + x, row + y)) == game.turn for x, y in ((1, 0), (-1, 0), (0, 1), (1, 1))):
            mine.append(code)
    return dice.one_of(mine) if mine and dice.below(8) else clustered(dice, game)


def line_of(head, codes):
    return " ".join([head, ":"] + [str(code) for code in codes])


REFUSED_HEAPS = ([], [0], [32], [255], [1] * 9, [31] * 9, [3, 0, 3], [31, 32], [1, 2, 3, 4, 5, 6, 7, 0])
FULL_HEAPS = ([1], [2], [31], [1] * 8, [31] * 8, [1, 1], [1, 2], [2, 2], [1, 1, 1], [1, 31])


def nim_cases(dice):
    for heaps in REFUSED_HEAPS:
        yield line_of(" ".join(["nim"] + [str(size) for size in heaps]), [1, 33])
    shapes = [list(heaps) for heaps in FULL_HEAPS]
    for number in range(130):
        count = 1 + number % 8
        largest = dice.one_of((1, 2, 2, 3, 3, 5, 31))
        shapes.append([dice.between(1, largest) for _ in range(count)])
    for heaps in shapes:
        codes = played(dice, Nim(heaps), any_code, 4)
        yield line_of(" ".join(["nim"] + [str(size) for size in heaps]), codes)


def four_cases(dice):
    yield line_of("connect-four", [0, 1, 0, 1, 0, 1, 0])
    for _ in range(90):
        yield line_of("connect-four", played(dice, ConnectFour(), any_code, 8))
    for _ in range(12):
        yield line_of("connect-four", played(dice, ConnectFour(), following(full_board(dice)), 8))


def gomoku_cases(dice):
    for number in range(50):
        choose = (clustered, in_rows)[number % 2]
        yield line_of("gomoku", played(dice, Gomoku(), choose, 8))
    for _ in range(6):
        yield line_of("gomoku", played(dice, Gomoku(), following(full_grid(dice)), 12))


MAKERS = {"nim": nim_cases, "connect-four": four_cases, "gomoku": gomoku_cases}


def main(words):
    if words and words[0] == "cases":
        for name in words[1:] or MAKERS:
            for line in MAKERS[name](Dice(SEED + list(MAKERS).index(name))):
                print(line)
    elif words == ["expect"]:
        for line in sys.stdin:
            print("\n".join(expected(line)))
    else:
        sys.exit(__doc__)


if __name__ == "__main__":
    main(sys.argv[1:])
