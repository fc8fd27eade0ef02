"""How guests end before their time: lines that trap, that use a return address as data, or that exit."""
from guest_code import AREA, ATOMICS, LOADS, REGISTER, STORES

# addresses of nothing: below and behind all memory, the code, both ends of the stack, and the number of a function
NOWHERE = [0, 0x10000, 0x3FEFFFF8, 0x40000000, 0x50000000, -8, 0x70000010]
# numbers that are no function's
NO_FUNCTION = [0, 8, 0x10000, 0x70000008, 0x7000FFF0, 0x74000000 + 16 * 4096, -16]
# words without an instruction of RV64IMA: of zeros, of ones, FENCE.I, WFI, MRET, a custom one, an ADD of floating point
ILLEGAL = [0, 0xFFFFFFFF, 0x0000100F, 0x10500073, 0x30200073, 0x0000102B, 0x00000053]


# ---- traps


def loads_nowhere(code):
    draws = code.draws
    return [f"li t5, {draws.one_of(NOWHERE)}", f"{draws.one_of(list(LOADS))} {code.target()}, 0(t5)"]


def stores_nowhere(code):
    draws = code.draws
    return [f"li t5, {draws.one_of(NOWHERE)}", f"{draws.one_of(list(STORES))} {code.source()}, 0(t5)"]


def atomic_nowhere(code):
    draws = code.draws
    lines = [f"{name}.d {code.target()}, {code.source()}, (t5)" for name in ATOMICS] + [f"lr.w {code.target()}, (t5)"]
    return [f"li t5, {draws.one_of(NOWHERE)}", draws.one_of(lines)]


def misaligned(code):
    draws, names = code.draws, code.draws.one_of([LOADS, STORES])
    name = draws.one_of([name for name in names if names[name] > 1])
    width = names[name]
    at = width * draws.below(AREA // width) + draws.between(1, width - 1)
    return [f"{name} {code.target()}, {at}(gp)"]


def misaligned_atomic(code):
    draws, width = code.draws, code.draws.one_of([4, 8])
    at = width * draws.below(AREA // width) + draws.between(1, width - 1)
    end = "w" if width == 4 else "d"
    line = f"{draws.one_of(list(ATOMICS))}.{end} {code.target()}, {code.source()}, (t5)"
    return [f"addi t5, gp, {at}", draws.one_of([line, f"lr.{end} {code.target()}, (t5)"])]


def stops(code):
    return [code.draws.one_of(["ebreak", f".raw {code.draws.one_of(ILLEGAL)}"])]


def jumps_nowhere(code):
    """A call, or a jump where no return address is saved."""
    if not (code.slot is not None or code.is_entry) and code.open:
        return stops(code)
    step = "jalr ra, 0(t5)" if code.slot is not None or code.is_entry else "jr t5"
    return [f"li t5, {code.draws.one_of(NO_FUNCTION)}", step]


def trap(code):
    kinds = [loads_nowhere, stores_nowhere, atomic_nowhere, misaligned, misaligned_atomic, stops, jumps_nowhere]
    return code.draws.one_of(kinds)(code)


# ---- uses of a return address as data


def reads_ra(code):
    draws, at, on = code.draws, 8 * code.draws.below(AREA // 8), code.label()
    return draws.one_of(
        [
            [f"{draws.one_of(REGISTER)} {code.target()}, ra, {code.source()}"],
            [f"{draws.one_of(REGISTER)} {code.target()}, {code.source()}, ra"],
            [f"addi {code.target()}, ra, 4"],
            [f"srli {code.target()}, ra, 12"],
            [f"mv {code.target()}, ra"],
            [f"sd ra, {at}(gp)"],
            [f"sw ra, {at}(gp)"],
            [f"ld {code.target()}, 0(ra)"],
            [f"lb {code.target()}, 1(ra)"],
            [f"amoadd.d {code.target()}, ra, (gp)"],
            [f"amoswap.w {code.target()}, {code.source()}, (ra)"],
            [f"lr.w {code.target()}, (ra)"],
            [f"sc.d {code.target()}, ra, (gp)"],
            [f"bne {code.source()}, ra, {on}", f"{on}:"],
        ]
    )


def changes_ra(code):
    lines = ["addi ra, ra, 4", f"xor ra, ra, {code.source()}", "jalr ra, 0(ra)"]
    return [code.draws.one_of(lines + [f"sd ra, {slot}(sp)" for slot in code.slots])]


def loads_slot(code):
    name = code.draws.one_of(list(LOADS))
    width = LOADS[name]
    return [f"{name} {code.target()}, {code.slot + width * code.draws.below(8 // width)}(sp)"]


def stores_slot(code):
    name = code.draws.one_of(list(STORES))
    width = STORES[name]
    return [f"{name} {code.source()}, {code.slot + width * code.draws.below(8 // width)}(sp)"]


def atomic_on_slot(code):
    lines = [f"{name}.d {code.target()}, {code.source()}, (t5)" for name in ATOMICS] + [f"lr.d {code.target()}, (t5)"]
    return [f"addi t5, sp, {code.slot}", code.draws.one_of(lines)]


def passes_slot(code):
    """Writes the slot out, or reads into it."""
    number, file = code.draws.one_of([(64, 1), (64, 2), (63, 0)])
    at = code.slot - 8 * code.draws.below(2) if code.slot else 0
    return [f"li a0, {file}", f"addi a1, sp, {at}", f"li a2, {code.slot - at + code.draws.between(1, 8)}", f"li a7, {number}", "ecall"]


def hands_slot_on(code):
    """Calls a function that loads from its argument, or stores there."""
    name = code.draws.one_of(["loads_it", "stores_it"])
    code.guest.helpers.add(name)
    return [f"addi a0, sp, {code.slot}", f"call {name}"]


def leak(code):
    kinds = [reads_ra] * 3
    if code.slot is not None:
        kinds += [changes_ra, loads_slot, stores_slot, atomic_on_slot, passes_slot, hands_slot_on]
    return code.draws.one_of(kinds)(code)


# ---- exits


def leaves(code):
    return [f"li a0, {code.draws.below(300)}", f"li a7, {code.draws.one_of([93, 94])}", "ecall"]


ENDS = {"trap": trap, "leak": leak, "exit": leaves}


def trial(code, fate):
    """Ends the guest so where the hart comes here for the first time, or for one of the next."""
    draws = code.draws
    code.say(f"ld t5, {AREA}(gp)", "addi t5, t5, 1", f"sd t5, {AREA}(gp)", f"addi t5, t5, -{draws.between(1, 4)}", "beqz t5, ends", "goes_on:")
    code.aside.append("ends:")
    if fate == "trap" and draws.chance(12):
        # past the end of the function
        code.aside.append("nop")
    else:
        code.aside += ENDS[fate](code) + ["j goes_on"]
