#!/usr/bin/env python3
# SPDX-License-Identifier: Apache-2.0
"""Guests by number. With numbers behind it, it prints the sources of these guests.

A guest has functions of several kinds, each of which calls those that were made before it, and `start`, which calls them
all, writes what came of it, and exits. Others trap, use a return address as data, exit from inside or never end. Some
have further harts, each with an area and a stack of its own.
"""
import struct
import sys
from typing import NamedTuple

sys.dont_write_bytecode = True
from draws import Draws
from guest_code import AREA, SAVED, SHARED, SUMS, WORK, Code, block, by_address, by_name, call, close_frame, fitting, open_frame, simple
from guest_ends import ENDS, trial

# the parts of a hundred that end so; guests with several harts have no more than the first three
FATES = ["exit"] * 56 + ["trap"] * 18 + ["leak"] * 14 + ["inside"] * 6 + ["limit"] * 6


class Function(NamedTuple):
    """A function that was written: its name, at most how many instructions and how much stack a call takes, and its row."""

    name: str
    cost: int
    depth: int
    index: int


class Guest:
    """A guest: how it is to end, and its functions and data as far as they are written."""

    def __init__(self, number):
        self.draws = draws = Draws(number)
        self.harts = draws.between(2, 5) if number % 7 == 3 else 1
        self.fate = draws.one_of(FATES if self.harts == 1 else FATES[:88])
        self.budget = draws.one_of([300, 600, 1200, 1200, 2400, 2400, 5000]) + draws.below(300)
        self.steps = self.budget + draws.between(200, 2000) if self.fate == "limit" else 200000
        self.functions = []  # those that may be called by anyone
        self.texts = []  # the lines of all functions
        self.tables = []  # the functions with a table of labels, and how many labels
        self.helpers = set()
        self.stacks = []  # of each further hart the bytes of its stack
        self.own_stack = 0  # those of a stack that hart 0 takes, if it does
        self.make_functions()
        if self.harts > 1:
            Harts(self).make()
        else:
            make_start(self, [], [])
        self.source = self.written()

    def make_functions(self):
        count = self.draws.between(2, 9)
        ends_early = self.harts == 1 and self.fate in ("trap", "leak", "inside") and self.draws.chance(80)
        last = self.draws.below(count) if ends_early else None
        kinds = [leaf] * 3 + [framed] * 4 + [recursive, alternating, switching]
        for number in range(count):
            kind = self.draws.one_of(kinds)
            kind(self, f"f{number}", number == last)

    def add(self, code, is_row=True):
        """Ends a function."""
        code.say(*code.aside)
        self.texts.append(code.lines + [".endfunc"])
        made = Function(code.name, code.cost, max(code.frame + code.below, code.beside), len(self.functions))
        if is_row:
            self.functions.append(made)
        return made

    def written(self):
        """The source, with the functions in any order."""
        helpers = {"loads_it": "ld t0, 0(a0)", "stores_it": "sb zero, 3(a0)"}
        texts = self.texts + [[f".func {name}", "    " + helpers[name], "    ret", ".endfunc"] for name in sorted(self.helpers)]
        lines = [line for text in self.draws.shuffled(texts) for line in text]
        return "\n".join([".entry start", *lines, *data(self)]) + "\n"


# ---- functions


def leave(code):
    """Returns, or ends in a jump to another function."""
    callees = [] if code.has_labels else fitting(code)
    if not callees or code.draws.chance(75):
        code.say("ret")
        return
    callee = code.draws.one_of(callees)
    ways = [[f"tail {callee.name}"], [f"j {callee.name}"], [f"la t5, {callee.name}", "jr t5"]]
    ways += [["la t5, rows", f"ld t5, {8 * callee.index}(t5)", "jr t5"], [f"la t5, {callee.name}", "addi t5, t5, -32", "jalr zero, 32(t5)"]]
    code.say(*code.draws.one_of(ways))
    code.cost += callee.cost
    code.beside = max(code.beside, callee.depth)


def leaf(guest, name, is_last):
    """A function without calls, with or without a frame."""
    code = Code(guest, name)
    draws = guest.draws
    size = 16 * draws.between(1, 8) if draws.chance(50) else 0
    if size:
        code.say(f"addi sp, sp, -{size}")
        code.open = code.frame = size
        code.slots = list(range(0, size, 8))
    block(code, draws.between(1, 5))
    if not size and draws.chance(40):
        on = code.label()
        code.say(f"bge {code.source()}, {code.source()}, {on}", "ret", f"{on}:")
    if is_last:
        trial(code, fate_of(guest))
    if size:
        code.say(f"addi sp, sp, {size}")
        code.open, code.slots = 0, []
    leave(code)
    return guest.add(code)


def fate_of(guest):
    """What a trial comes to."""
    return "exit" if guest.fate == "inside" else guest.fate


def frame_size(draws, registers):
    """The size of a frame that has room for so many registers and the return address."""
    if draws.chance(7):
        return 16 * draws.between(128, 400)
    return 16 * draws.between(1 + registers // 2, 10)


def framed_part(code, inner, is_last):
    """A frame, what is done in it, and its end."""
    draws = code.draws
    saved = draws.shuffled(SAVED)[: draws.between(1, 4)]
    open_frame(code, frame_size(draws, len(saved)), saved)
    code.counters, code.work = saved[:2], WORK + saved[2:]
    out = code.label()
    block(code, draws.between(1, 4))
    if inner:
        call_inner(code, *inner)
    if draws.chance(40):
        code.say(f"bltu {code.source()}, {code.source()}, {out}")
    block(code, draws.between(0, 3))
    if is_last:
        trial(code, fate_of(code.guest))
    code.say(f"{out}:")
    close_frame(code)


def call_inner(code, inner, most):
    """Calls a function with the number of its rounds, which is `most` at most."""
    code.say(f"andi a0, a0, {most}")
    code.draws.one_of([by_name, by_address])(code, inner)
    code.charge(inner.cost, inner.depth)


def framed(guest, name, is_last, inner=None):
    """A function that calls others, with one frame or with two one behind the other."""
    code = Code(guest, name, calls=True)
    framed_part(code, inner, is_last)
    if guest.draws.chance(20):
        simple(code)
        framed_part(code, None, False)
    leave(code)
    return guest.add(code)


def rounds(depth, is_twice):
    """How many calls there are of a function that calls itself with one less, and by half if it does so twice."""
    if depth == 0:
        return 1
    return 1 + rounds(depth - 1, is_twice) + (rounds(depth // 2, is_twice) if is_twice else 0)


def recursive(guest, name, is_last):
    """A function that calls itself, and one that calls it."""
    code, draws = Code(guest, name + "_in", calls=True), guest.draws
    is_twice, out = draws.chance(30), code.label()
    most = draws.one_of([3, 7]) if is_twice else draws.one_of([3, 7, 15, 31])
    code.say(f"beqz a0, {out}")
    open_frame(code, 16 * draws.between(1, 8), ["s0"])
    code.work = WORK[:5] + WORK[6:]
    code.say("mv s0, a0")
    again = Function(code.name, 0, 0, 0)
    step(code, again, "addi a0, s0, -1")
    if is_twice:
        step(code, again, "srli a0, s0, 1")
    close_frame(code)
    code.say(f"{out}:", "ret")
    code.cost, code.below = code.cost * rounds(most, is_twice), code.frame * most
    framed(guest, name, is_last, (guest.add(code, is_row=False), most))


def step(code, again, argument):
    """A statement or two, and the call with the argument that a line makes."""
    for _ in range(code.draws.between(1, 2)):
        simple(code)
    code.say(argument)
    code.draws.one_of([by_name, by_name, by_address])(code, again)


def alternating(guest, name, is_last):
    """Two functions that jump to each other, and one that calls the first."""
    most = guest.draws.one_of([3, 15, 31])
    names = [name + "_even", name + "_odd"]
    costs = [half(guest, *names), half(guest, *reversed(names))]
    first = Function(names[0], max(costs) * (most + 1), 0, 0)
    framed(guest, name, is_last, (first, most))


def half(guest, name, other):
    """A function that jumps to the other one with one less; answers its cost."""
    code, out = Code(guest, name), "out"
    code.work = WORK[:5] + WORK[6:]
    code.say(f"beqz a0, {out}", "addi a0, a0, -1")
    for _ in range(guest.draws.below(4)):
        simple(code)
    code.say(*guest.draws.one_of([[f"tail {other}"], [f"j {other}"], [f"la t5, {other}", "jr t5"]]), f"{out}:", "ret")
    return guest.add(code, is_row=False).cost


def switching(guest, name, is_last):
    """A function that jumps by a table of labels, with or without a frame."""
    draws = guest.draws
    code = Code(guest, name, calls=draws.chance(50))
    code.has_labels = True
    if code.calls:
        open_frame(code, frame_size(draws, 2), ["s2", "s3"])
        code.counters = ["s2", "s3"]
    count = draws.one_of([2, 4, 8])
    guest.tables.append((name, count))
    code.say(f"andi t5, {code.source()}, {count - 1}", "slli t5, t5, 3", f"la t6, {name}_table", "add t5, t5, t6", "ld t5, 0(t5)", "jr t5")
    for number in range(count):
        code.say(f"{name}_case{number}:")
        block(code, draws.between(1, 2))
        if draws.chance(80):
            code.say("j out")
    code.say("out:")
    if is_last:
        trial(code, fate_of(guest))
    if code.calls:
        close_frame(code)
    code.say("ret")
    return guest.add(code)


# ---- the entry function


def make_start(guest, begun, ended):
    """The entry function; these lines begin the other harts, and these wait for their ends."""
    code, draws = Code(guest, "start", calls=True), guest.draws
    code.is_entry, code.most = True, guest.budget
    code.say("la gp, area")
    takes_stack = draws.chance(15)
    if takes_stack:
        code.say("la t5, stack_top", "mv sp, t5")
    size = 16 * draws.between(1, 12)
    if draws.chance(50):
        open_frame(code, size, [])
    else:
        # ra holds no return address from here on, at each place to which paths lead
        code.say(f"addi sp, sp, -{size}", f"li ra, {draws.below(100)}")
        code.open = code.frame = size
        code.slots = list(range(0, size, 8))
    code.counters, code.work = ["s0", "s1", "s2"], WORK + SAVED[3:8]
    code.say(*begun)
    for _ in range(draws.between(3, 10)):
        block(code, 3)
        call(code)
    code.say(*ended)
    end_start(code)
    depth = guest.add(code, is_row=False).depth
    guest.own_stack = depth + 64 if takes_stack else 0


def end_start(code):
    """The end of the guest, where none has come yet."""
    guest, draws = code.guest, code.draws
    if guest.fate == "limit":
        code.say("spins:")
        block(code, draws.below(4))
        code.say("j spins")
        return
    if guest.fate in ("trap", "leak") and guest.harts == 1:
        call(code)
        if guest.fate == "trap" and draws.chance(12):
            # past the end of the function
            code.say("nop")
            return
        code.say(*ENDS[guest.fate](code))
    write_all(code)
    exit_from(code)


def write_all(code):
    """Puts registers into the area, and writes what there is."""
    draws = code.draws
    for number, register in enumerate(draws.shuffled(WORK + SAVED)):
        code.say(f"sd {register}, {8 * number}(gp)")
    code.say(f"li a0, {draws.between(1, 2)}", "mv a1, gp", f"li a2, {AREA + 8}", "li a7, 64", "ecall")
    if code.guest.harts == 1:
        code.say("li a0, 1", "la a1, shared", f"li a2, {SHARED}", "li a7, 64", "ecall")


def exit_from(code):
    """Exits by a call, or by a return to nobody."""
    draws = code.draws
    code.say("li a0, 0" if draws.chance(40) else f"lbu a0, {draws.below(AREA)}(gp)")
    if code.slot is not None and draws.chance(50):
        close_frame(code)
        code.say("ret")
    else:
        code.say(f"li a7, {draws.one_of([93, 94])}", "ecall")


# ---- further harts


class Harts:
    """The further harts of a guest, and how they go together. One of them may trap or leak."""

    def __init__(self, guest):
        self.guest, self.draws = guest, guest.draws
        self.numbers = range(1, guest.harts)
        # each begins the next, or hart 0 begins all
        self.is_chain = self.draws.chance(30)
        self.talks = not self.is_chain and self.draws.chance(40)
        self.failing = self.draws.one_of(self.numbers) if guest.fate != "exit" else None

    def make(self):
        for number in self.numbers:
            self.work(number)
        own = [1] if self.is_chain else self.numbers
        begun = [line for number in own for line in self.begin(number)]
        ended = (self.asks() if self.talks else []) + [line for number in own for line in self.wait(number)]
        # without that it waits, hart 0 exits alone, and knows nothing of the others
        if self.failing is None and self.draws.chance(15):
            make_start(self.guest, begun, self.asks() if self.talks else [])
        else:
            make_start(self.guest, begun, ended + [line for number in self.numbers for line in self.write(number)])

    def begin(self, number):
        argument = self.draws.between(-99, 99)
        return [f"la a0, work{number}", f"li a1, {argument}", f"la a2, stack{number}_top", f"la a3, area{number}", "li a7, 2000", "ecall"]

    def wait(self, number):
        return [f"waits{number}:", f"li a0, {number}", "li a7, 2001", "ecall", f"beqz a0, waits{number}"]

    def write(self, number):
        """Writes the area of a hart that has ended, and its stack, and what all share."""
        size = self.guest.stacks[number - 1]
        pieces = [(f"area{number}", AREA + 8), (f"stack{number}", size), ("shared", SHARED)]
        return [line for name, count in pieces for line in ("li a0, 1", f"la a1, {name}", f"li a2, {count}", "li a7, 64", "ecall")]

    def asks(self):
        """Hands a number to hart 1, and waits for its answer."""
        sent = ["la t5, mail", "sd a3, 8(t5)", "fence", "li t0, 1", "sd t0, 0(t5)"]
        return sent + ["hears:", "ld t0, 16(t5)", "beqz t0, hears", "fence", "ld a4, 24(t5)"]

    def answers(self, code):
        code.say("la t5, mail", "hears:", "ld t0, 0(t5)", "beqz t0, hears", "fence", "ld a1, 8(t5)")
        simple(code)
        code.say("la t5, mail", "sd a1, 24(t5)", "fence", "li t0, 1", "sd t0, 16(t5)")

    def work(self, number):
        """The function of a hart."""
        code, draws = Code(self.guest, f"work{number}", calls=True), self.draws
        code.most = self.guest.budget // 2
        code.say("mv gp, tp")
        open_frame(code, 16 * draws.between(2, 8), [])
        code.counters, code.work = ["s0", "s1"], WORK + SAVED[2:5]
        is_first = self.is_chain and number + 1 < self.guest.harts
        code.say(*(self.begin(number + 1) if is_first else []))
        for _ in range(draws.between(1, 4)):
            block(code, 3)
            call(code)
        if self.talks and number == 1:
            self.answers(code)
        code.say(*(self.wait(number + 1) if is_first else []))
        if number == self.failing:
            code.say(*ENDS[self.guest.fate](code))
        self.end(code)

    def end(self, code):
        """Returns to nobody, or exits with the return address still saved."""
        if self.draws.chance(60):
            close_frame(code)
            code.say("ret")
        else:
            code.say(f"li a0, {self.draws.below(256)}", "li a7, 93", "ecall")
        made = self.guest.add(code, is_row=False)
        self.guest.stacks.append(made.depth + 64)


# ---- data


def numbers(draws, count):
    return ", ".join(hex(draws.number()) for _ in range(count))


def area(draws, name):
    """The area of a hart, and its count behind it."""
    lines = [".align 16", f"{name}: .quad {numbers(draws, 56)}"]
    lines.append(f".word {', '.join(hex(draws.below(2**32)) for _ in range(8))}")
    lines.append(f".byte {', '.join(str(draws.between(-128, 255)) for _ in range(16))}")
    return lines + ['.ascii "\\"Sixteen bytes\\"\\n"', ".quad 0"]


def stack(name, size):
    """A stack of so many bytes, and its top."""
    return [".align 16", f"{name}: .zero {size + -size % 16}", f"{name}_top: .quad 0"]


def data(guest):
    """The lines of the data."""
    draws, names = guest.draws, [function.name for function in guest.functions]
    lines = area(draws, "area")
    lines += [".align 8", f"rows: .quad {', '.join(names)}", f"short_rows: .word {', '.join(names)}"]
    lines += [".align 8", f"constants: .quad {numbers(draws, 8)}", "pointers: .quad constants"]
    lines += [f"{name}_table: .quad {', '.join([name] * count)}" for name, count in guest.tables]
    lines += [f"shared: .quad {numbers(draws, len(SUMS) + 1)}, 0, 0", "mail: .zero 32"]
    for number, size in enumerate(guest.stacks, 1):
        lines += area(draws, f"area{number}") + stack(f"stack{number}", size)
    return lines + (stack("stack", guest.own_stack) if guest.own_stack else [])


# ---- tables of labels


def values_of(file, symbols, size, strings):
    """The values of the symbols of an executable by their names."""
    values = {}
    for at in range(symbols, symbols + size, 24):
        name, _, _, _, value, _ = struct.unpack_from("<IBBHQQ", file, at)
        values[file[strings + name : file.index(0, strings + name)].decode()] = value
    return values


def with_labels(file, tables):
    """The executable of a guest, with tables that name the places of its cases: the language names functions alone there."""
    file = bytearray(file)
    heads = struct.unpack_from("<Q", file, 40)[0]
    parts = [struct.unpack_from("<QQQ", file, heads + 64 * section + 16) for section in range(8)]
    (home, data_at, _), (_, records, size) = parts[2], parts[4]
    values = values_of(file, parts[5][1], parts[5][2], parts[6][1])
    record_of = {struct.unpack_from("<Q", file, at)[0]: at for at in range(records, records + size, 24)}
    for name, number in [(name, number) for name, count in tables for number in range(count)]:
        place, target = values[f"{name}_table"] + 8 * number, values[f"{name}_case{number}"]
        struct.pack_into("<Q", file, data_at + place - home, target)
        struct.pack_into("<q", file, record_of[place] + 16, target - values[name])
    return bytes(file)


if __name__ == "__main__":
    for word in sys.argv[1:]:
        print(Guest(int(word)).source, end="")
