"""A function of a guest as it is written in the assembler's language, by statements that are drawn one behind another.

gp is the address of the AREA bytes that a hart has for itself, behind which it counts; statements load and store these
and the slots of their function's frame. What harts share they change by sums and the like alone, so that nothing that a
guest writes hangs on the order of its harts. t5 is for addresses, and so is t6 in functions that call.
"""

WORK = [f"t{k}" for k in range(5)] + [f"a{k}" for k in range(7)]
SAVED = [f"s{k}" for k in range(12)]
AREA = 512
NAMES = ["zero", "ra", "sp", "gp", "tp", "t0", "t1", "t2", "s0", "s1", *(f"a{k}" for k in range(8)), *SAVED[2:], "t3", "t4", "t5", "t6"]

REGISTER = (
    "add sub sll slt sltu xor srl sra or and mul mulh mulhsu mulhu div divu rem remu"
    " addw subw sllw srlw sraw mulw divw divuw remw remuw"
).split()
IMMEDIATE = "addi slti sltiu xori ori andi addiw".split()
SHIFTS = {"slli": 64, "srli": 64, "srai": 64, "slliw": 32, "srliw": 32, "sraiw": 32}
LOADS = {"lb": 1, "lbu": 1, "lh": 2, "lhu": 2, "lw": 4, "lwu": 4, "ld": 8}
STORES = {"sb": 1, "sh": 2, "sw": 4, "sd": 8}
BRANCHES = "beq bne blt bge bltu bgeu".split()
# the bits above the fields of an atomic
ATOMICS = {
    "amoadd": 0, "amoswap": 1, "sc": 3, "amoxor": 4, "amoor": 8, "amoand": 12, "amomin": 16, "amomax": 20, "amominu": 24, "amomaxu": 28,
}
# fences with other fields than those of `fence`
FENCES = [0x0FF0000F, 0x0330000F, 0x8330000F, 0x0120000F, 0x0FF5028F]
# what harts may do to the words that they share, each to one of its own
SUMS = ["amoadd.d", "amoadd.w", "amoxor.d", "amoor.w", "amoand.d", "amomax.d", "amominu.d", "amomaxu.w", "amomin.w"]
TALLY, LOCK = 8 * len(SUMS), 8 * len(SUMS) + 8
SHARED = LOCK + 16


def words_of(line):
    """How many instructions a line has."""
    mnemonic, _, operands = line.partition(" ")
    if mnemonic == "li":
        return 1 if -2048 <= int(operands.split(",")[1], 0) < 2048 else 2
    return 2 if mnemonic in ("la", "call", "tail") else 1


class Code:
    """A function as far as it is written, with bounds on its instructions and its stack."""

    def __init__(self, guest, name, calls=False):
        self.guest, self.draws, self.name, self.calls = guest, guest.draws, name, calls
        self.lines = [f".func {name}"]
        self.aside = []  # the lines behind the last return
        self.marks = 0
        self.times = 1  # how often the next line is executed at most
        self.cost = 0  # the instructions of one call
        self.most = max(guest.budget // 3, 120)  # what the cost is kept to
        self.open = 0  # the bytes of the frame as it is
        self.frame = 0  # those of the largest frame
        self.below = 0  # the stack of what is called from it
        self.beside = 0  # the stack of what is jumped to
        self.slot = None  # where the return address is saved
        self.kept = []  # where registers are saved
        self.slots = []  # what statements load and store of the frame
        self.work = list(WORK)
        self.counters = [] if calls else ["t6"]
        self.is_entry = self.has_labels = False

    def say(self, *lines):
        """Writes lines: instructions, and labels, which end by a colon."""
        for line in lines:
            is_label = line.endswith(":")
            self.lines.append(line if is_label else "    " + line)
            self.cost += 0 if is_label else words_of(line) * self.times

    def label(self):
        """A new label."""
        self.marks += 1
        return f"at{self.marks}"

    def charge(self, cost, depth):
        """Counts a call of a function with these bounds."""
        self.cost += cost * self.times
        self.below = max(self.below, depth)

    def target(self):
        """A register that may be written."""
        return self.draws.one_of(self.work)

    def source(self):
        """A register that may be read."""
        return self.draws.one_of(self.work + self.work + ["zero", "sp", "gp", "tp", "s0", "s11"])


# ---- statements without a call


def arithmetic(code):
    draws, kind = code.draws, code.draws.below(10)
    if kind < 5:
        code.say(f"{draws.one_of(REGISTER)} {code.target()}, {code.source()}, {code.source()}")
    elif kind < 7:
        code.say(f"{draws.one_of(IMMEDIATE)} {code.target()}, {code.source()}, {draws.between(-2048, 2047)}")
    elif kind < 8:
        name = draws.one_of(list(SHIFTS))
        code.say(f"{name} {code.target()}, {code.source()}, {draws.below(SHIFTS[name])}")
    elif kind < 9:
        code.say(f"li {code.target()}, {draws.between(-(2**31), 2**31 - 1)}")
    else:
        rare(code)


def rare(code):
    draws = code.draws
    code.say(
        draws.one_of(
            [
                f"lui {code.target()}, {draws.below(2**20)}",
                f"auipc {code.target()}, {draws.below(2**20)}",
                f"mv {code.target()}, {code.source()}",
                f"addi zero, {code.source()}, {draws.below(100)}",
                f"ld zero, {8 * draws.below(AREA // 8)}(gp)",
                f"li {code.target()}, {draws.one_of([-1, 1, 2147483647, -2147483648])}",
                "fence",
                f".raw {draws.one_of(FENCES)}",
            ]
        )
    )


def place(code, width):
    """An aligned place of so many bytes, as loads and stores name it."""
    draws = code.draws
    if code.slots and draws.chance(40):
        return f"{draws.one_of(code.slots) + width * draws.below(8 // width)}(sp)"
    if draws.chance(70):
        return f"{width * draws.below(AREA // width)}(gp)"
    code.say(f"andi t5, {code.source()}, {AREA - width}", "add t5, t5, gp")
    return "0(t5)"


def memory(code):
    draws = code.draws
    names, register = (LOADS, code.target()) if draws.chance(50) else (STORES, code.source())
    name = draws.one_of(list(names))
    code.say(f"{name} {register}, {place(code, names[name])}")


def constant(code):
    """Loads a number, or the pointer to a function, by a pointer."""
    draws, functions = code.draws, code.guest.functions
    if functions and draws.chance(40):
        code.say("la t5, rows", f"ld {code.target()}, {8 * draws.below(len(functions))}(t5)")
    else:
        code.say("la t5, pointers", "ld t5, 0(t5)", f"ld {code.target()}, {8 * draws.below(8)}(t5)")


def address(code, width):
    """Puts an aligned address of so many bytes into t5."""
    draws = code.draws
    if code.slots and draws.chance(30):
        code.say(f"addi t5, sp, {draws.one_of(code.slots) + width * draws.below(8 // width)}")
    else:
        code.say(f"addi t5, gp, {width * draws.below(AREA // width)}")


def atomic_line(code, name, width):
    """An atomic at t5, as its name or as a word that has order bits too."""
    draws, target, source = code.draws, code.target(), code.source()
    if draws.chance(75):
        return f"{name}.{'w' if width == 4 else 'd'} {target}, {source}, (t5)"
    word = ATOMICS[name] << 27 | draws.below(4) << 25 | NAMES.index(source) << 20 | NAMES.index("t5") << 15
    return f".raw {word | (2 if width == 4 else 3) << 12 | NAMES.index(target) << 7 | 0x2F}"


def atomic(code):
    width = code.draws.one_of([4, 8])
    address(code, width)
    code.say(atomic_line(code, code.draws.one_of(list(ATOMICS)), width))


def reservation(code):
    """Reserves a word and stores to it, now and then to another one or in another width."""
    draws, width = code.draws, code.draws.one_of([4, 8])
    address(code, width)
    code.say(f"lr.{'w' if width == 4 else 'd'} {code.target()}, (t5)")
    between = draws.below(10)
    if between < 2:
        memory_at_gp(code)
    elif between < 5:
        arithmetic(code)
    elif between < 7:
        width = 12 - width
        address(code, width)
    code.say(atomic_line(code, "sc", width))


def memory_at_gp(code):
    draws = code.draws
    name = draws.one_of(list(STORES))
    code.say(f"{name} {code.source()}, {STORES[name] * draws.below(AREA // STORES[name])}(gp)")


def simple(code):
    code.draws.one_of([arithmetic] * 7 + [memory] * 5 + [atomic, reservation, constant])(code)


def fork(code):
    """A branch around a statement or two."""
    draws, aside, on = code.draws, code.label(), code.label()
    code.say(f"{draws.one_of(BRANCHES)} {code.source()}, {code.source()}, {aside}")
    simple(code)
    code.say(f"j {on}", f"{aside}:")
    if draws.chance(60):
        simple(code)
    code.say(f"{on}:")


# ---- what harts share


def share(code):
    draws, kind = code.draws, code.draws.below(4)
    code.say("la t5, shared")
    if kind == 0:
        tally(code)
    elif kind == 1:
        locked(code)
    else:
        number = draws.below(len(SUMS))
        code.say(f"addi t5, t5, {8 * number}", f"{SUMS[number]} zero, {code.source()}, (t5)")


def tally(code):
    """Adds to a shared word by a reservation, again and again until it holds."""
    again = code.label()
    code.say(f"addi t5, t5, {TALLY}", f"{again}:", "lr.d t3, (t5)", "add t3, t3, a1", "sc.d t4, t3, (t5)", f"bnez t4, {again}", "li t3, 0")


def locked(code):
    """Adds to a shared word behind a lock."""
    again = code.label()
    code.say(f"addi t5, t5, {LOCK}", "li t3, 1", f"{again}:", "amoswap.w t4, t3, (t5)", f"bnez t4, {again}")
    code.say("ld t4, 8(t5)", "add t4, t4, a2", "sd t4, 8(t5)", "li t4, 0", "fence", "amoswap.w zero, zero, (t5)")


# ---- environment calls


def ask(code):
    """An environment call, of those that only a guest with one hart makes if it is the only one."""
    draws, at = code.draws, code.draws.below(AREA - 32)
    refused = [
        ["li a7, 2002"],
        [f"li a7, {draws.one_of([0, 1, 62, 65, 92, 95, 1999, 2003, -1])}"],
        [f"li a0, {draws.between(64, 100)}", "li a7, 2001"],
        ["li a0, 3", "mv a1, gp", "li a2, 8", "li a7, 64"],
        ["li a0, 1", f"li a1, {draws.one_of([0, 0x10000, 0x3FFFFFFF])}", "li a2, 5", "li a7, 64"],
        ["li a0, 0", "li a1, 16", "li a2, 5", "li a7, 63"],
        [f"li a0, {draws.one_of([0, 0x10000, 0x70000008])}", "li a7, 2000"],
    ]
    granted = [
        [f"li a0, {draws.between(1, 2)}", f"addi a1, gp, {at}", f"li a2, {draws.below(17)}", "li a7, 64"],
        ["li a0, 0", f"addi a1, gp, {at}", f"li a2, {draws.below(33)}", "li a7, 63"],
    ]
    code.say(*draws.one_of(refused + granted * 4 if code.guest.harts == 1 else refused), "ecall")


# ---- calls


def last_step(code):
    """Calls through the pointer in t5, by one of the ways in which the number can come about."""
    by = code.draws.one_of([0, 0, 0, 1, -16, 2000])
    if by not in (0, 1):
        code.say(f"addi t5, t5, {-by}")
    code.say(f"jalr ra, {by}(t5)")


def by_name(code, callee):
    code.say(code.draws.one_of([f"call {callee.name}", f"jal ra, {callee.name}"]))


def by_address(code, callee):
    code.say(f"la t5, {callee.name}")
    last_step(code)


def by_row(code, callee):
    code.say("la t5, rows", f"ld t5, {8 * callee.index}(t5)")
    last_step(code)


def by_short_row(code, callee):
    code.say("la t5, short_rows", f"{code.draws.one_of(['lw', 'lwu'])} t5, {4 * callee.index}(t5)")
    last_step(code)


def by_ra(code, callee):
    code.say("la t5, rows", f"ld ra, {8 * callee.index}(t5)", "jalr ra, 0(ra)")


def fitting(code):
    """The functions that may be called without that the cost becomes too high."""
    return [callee for callee in code.guest.functions if code.cost + code.times * (callee.cost + 9) <= code.most]


def call(code):
    callees = fitting(code)
    if not callees:
        simple(code)
        return
    callee = code.draws.one_of(callees)
    code.draws.one_of([by_name] * 4 + [by_address, by_row, by_short_row, by_ra])(code, callee)
    code.charge(callee.cost, callee.depth)


def call_some(code):
    """Calls the function of the row whose number comes out."""
    callees = code.guest.functions
    if not callees or len(fitting(code)) < len(callees):
        call(code)
        return
    code.say(f"li t5, {len(callees)}", f"remu t5, {code.source()}, t5", "slli t5, t5, 3", "la t6, rows", "add t5, t5, t6", "ld t5, 0(t5)")
    last_step(code)
    code.charge(max(callee.cost for callee in callees), max(callee.depth for callee in callees))


def scratch(code):
    """Uses ra for a number, where the return address is saved."""
    draws = code.draws
    code.say(f"li ra, {draws.between(-3000, 3000)}", f"{draws.one_of(REGISTER)} {code.target()}, {code.source()}, ra")
    if code.slots and draws.chance(40):
        slot = draws.one_of(code.slots)
        code.say(f"sd ra, {slot}(sp)", f"ld ra, {slot}(sp)")


# ---- several statements


def loop(code):
    """Some statements, several times over."""
    draws = code.draws
    most_turns = min(12, (code.most - code.cost) // (40 * code.times))
    if not code.counters or most_turns < 2:
        simple(code)
        return
    counter, turns, again = code.counters.pop(), draws.between(2, most_turns), code.label()
    form = draws.one_of([down, down, up, checked])
    form(code, counter, turns, again)
    code.counters.append(counter)


def repeated(code, turns):
    code.times *= turns
    block(code, code.draws.between(1, 4))
    code.times //= turns


def down(code, counter, turns, again):
    code.say(f"li {counter}, {turns}", f"{again}:")
    repeated(code, turns)
    code.say(f"addi {counter}, {counter}, -1", f"bnez {counter}, {again}")


def up(code, counter, turns, again):
    code.say(f"li {counter}, {-turns}", f"{again}:")
    repeated(code, turns)
    code.say(f"addi {counter}, {counter}, 1", f"blt {counter}, zero, {again}")


def checked(code, counter, turns, again):
    out = code.label()
    code.say(f"li {counter}, {1 << turns}", f"{again}:", f"srli {counter}, {counter}, 1", f"beqz {counter}, {out}")
    repeated(code, turns)
    code.say(f"j {again}", f"{out}:")


def block(code, size):
    """So many statements."""
    kinds = [simple] * 7 + [fork, fork, loop, loop, ask, share]
    if code.calls:
        kinds += [call] * 4 + [call_some, scratch]
    for _ in range(size):
        code.draws.one_of(kinds)(code)


# ---- frames


def move_sp(by):
    """The lines that move sp by a number."""
    return [f"addi sp, sp, {by}"] if -2048 <= by < 2048 else [f"li t5, {by}", "add sp, sp, t5"]


def open_frame(code, size, saved):
    """Makes a frame of so many bytes, and saves the return address in it and these registers."""
    places = code.draws.shuffled(range(0, min(size, 2048), 8))
    code.slot = places.pop()
    code.kept = [(register, places.pop()) for register in saved]
    code.slots = places
    code.open, code.frame = size, max(code.frame, size)
    lines = [f"sd ra, {code.slot}(sp)"] + [f"sd {register}, {at}(sp)" for register, at in code.kept]
    code.say(*move_sp(-size), *code.draws.shuffled(lines))


def close_frame(code):
    """Takes all back that was saved, and frees the frame."""
    lines = [f"ld ra, {code.slot}(sp)"] + [f"ld {register}, {at}(sp)" for register, at in code.kept]
    code.say(*code.draws.shuffled(lines), *move_sp(code.open))
    code.open, code.slot, code.kept, code.slots = 0, None, [], []
    code.work, code.counters = list(WORK), []
