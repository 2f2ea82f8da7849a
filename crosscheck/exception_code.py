"""Pieces of code for the cases of exceptions: faults, triggers of exceptions, changes of masks, and bad returns. Each is a list
of lines of assembly. R11 is the address at which a piece is left after a fault; pieces use R0 to R3 and R12 otherwise."""

import random_code

# Addresses without memory on both machines, or shortly ahead of the end of flash or RAM, at which the default map lets code be
# fetched; and addresses without memory at which it doesn't (XN).
FLASH_END = 0x00020000
UNMAPPED = [FLASH_END, FLASH_END - 8, 0x10000000, 0x1FFFFFF0, 0x20002000, 0x20001FF8, 0x30000000, 0x3FFFFFF0]
UNMAPPED += [0x60000000, 0x80000000, 0x9FFFFFF0]
NEVER = [0x50000000, 0xA0000000, 0xC0000010, 0xDFFFFFF0]

# Words of the Private Peripheral Bus that code may read or write without an effect: ISER, ICPR.
SYSTEM = [0xE000E100, 0xE000E280, 0xE000E104]

# The lines that cases use.
LINES = [0, 1, 2, 3, 7, 16, 30, 31]

WINDOW = 0x20000800
ICSR, ISPR, STIR = 0xE000ED04, 0xE000E200, 0xE000EF00

# UDF and other encodings that have no instruction.
UNDEFINED = [0xDE00, 0xDE01, 0xDE7F, 0xDEFF, 0xB610, 0xBA80, 0xB800, 0xBABF]
UNDEFINED += [0xF7F0A000, 0xF7FFAFFF, 0xFA88FDBE, 0xF9EA0CFE, 0xF88FAF7D, 0xF826B0A4]
UNDEFINED += [0xFBB0F100, 0xFB80F0F1, 0xFA90F010, 0xF8F00000]

# MCR, MRC, CDP, LDC, STC, MCRR and MRRC with their second forms, and what other architectures have there.
COPROCESSOR = [0xEE010F10, 0xEE100E10, 0xEE000300, 0xED912200, 0xEDA10101, 0xEC510F00, 0xEC410700, 0xEC900B04, 0xEEDBCCA9]
COPROCESSOR += [0xFE000300, 0xFD912200, 0xFE110F10, 0xFC510F00, 0xED910A00, 0xEE300A00, 0xEEF1FA10]
COPROCESSOR += [0xEC000000, 0xEF000110, 0xFF000110]

# Loads and stores at R1 of words, halfwords, bytes and several words.
ANY = ["ldr r0, [r1]", "str r0, [r1]", "ldr r0, [r1], #4", "str r0, [r1, #4]!", "ldrt r0, [r1]", "strt r0, [r1]"]
HALF = ["ldrh r0, [r1]", "strh r0, [r1]", "ldrsh r0, [r1]", "ldrht r0, [r1]"]
BYTE = ["ldrb r0, [r1]", "strb r0, [r1]", "ldrbt r0, [r1]", "strbt r0, [r1]", "ldrsb r0, [r1]"]
SEVERAL = [
    "ldm r1, {r0, r2, r3}", "stm r1, {r0, r2, r3}", "ldm r1!, {r2, r3}", "stm r1!, {r2, r3}", "ldmdb r1!, {r0, r2}",
    "stmdb r1!, {r0, r12}", "ldrd r2, r3, [r1]", "strd r2, r3, [r1]", "ldrd r0, r2, [r1], #8", "strd r0, r2, [r1, #8]!",
    "ldm r1, {r0, r1, r2}",
]
BASED = ANY + HALF + BYTE + SEVERAL


def literal(register, value):
    """A register is given a value."""
    return f"ldr {register}, ={value:#010x}"


def encoded(encoding):
    """An encoding as an instruction."""
    return f".inst.w {encoding:#x}" if encoding > 0xFFFF else f".inst.n {encoding:#x}"


def swapped(text):
    """The encoding of a 32-bit instruction's bytes."""
    first, second = int.from_bytes(text[:2], "little"), int.from_bytes(text[2:], "little")
    return first << 16 | second


def in_block(source, instruction, is_branch=False):
    """An instruction, sometimes in an IT block whose condition holds, or seldom doesn't."""
    if source.random() < 0.75:
        return [instruction]
    count = source.randrange(1, 5)
    before = count - 1 if is_branch else source.randrange(count)
    fails = source.random() < 0.2
    mask = {1: 8, 2: 4, 3: 2, 4: 1}[count]
    if fails:
        mask = {1: 0x18, 2: 0x1C, 3: 0x1E, 4: 0x1F}[count]
    return ["cmp r0, r0", f".inst.n {0xBF00 | mask:#x}"] + ["nop"] * before + [instruction] + ["nop"] * (count - 1 - before)


def undefined(source):
    """An UNDEFINED encoding."""
    return in_block(source, encoded(source.choice(UNDEFINED)))


def no_coprocessor(source):
    """An instruction of a coprocessor."""
    return in_block(source, encoded(source.choice(COPROCESSOR)))


def unaligned(source):
    """An access at an address that isn't a multiple of its size, or in part."""
    kind = source.choice([ANY, HALF, SEVERAL, SEVERAL])
    return [literal("r1", WINDOW + 64 + source.choice([1, 2, 3, 5]))] + in_block(source, source.choice(kind))


def divide(source):
    """A division by zero."""
    lines = [literal("r2", source.choice([0, 1, 0x80000000, 0xFFFFFFFF])), "movs r1, #0"]
    return lines + in_block(source, source.choice(["sdiv r0, r2, r1", "udiv r0, r2, r1"]))


def jump(source, address):
    """A jump to an address, or a return to it."""
    kind = source.randrange(6)
    lines = [literal("r1", address)]
    if kind == 0:
        return lines + in_block(source, "blx r1", True)
    if kind == 1:
        return lines + ["push {r1}"] + in_block(source, "pop {pc}", True)
    if kind == 2:
        return lines + ["push {r0, r1}"] + in_block(source, "pop {r0, pc}", True)
    if kind == 3:
        return lines + [literal("r2", WINDOW + 16), "str r1, [r2]"] + in_block(source, "ldr pc, [r2]", True)
    if kind == 4:
        return lines + [literal("r2", WINDOW + 16), "str r1, [r2, #4]"] + in_block(source, "ldm.w r2, {r1, pc}", True)
    return lines + in_block(source, "bx r1", True)


def invalid_state(source):
    """A jump to an even address."""
    return jump(source, source.choice([0x20000600, 0x20000602, 0x00000100, 0x00000102, 0x20000802]))


def data_unmapped(source):
    """An access to memory that isn't there. Flash isn't written."""
    address, chosen = source.choice(UNMAPPED + NEVER), source.choice(BASED)
    if FLASH_END - 8 <= address <= FLASH_END:
        chosen = chosen.replace("st", "ld")
    return [literal("r1", address)] + in_block(source, chosen)


def data_system(source):
    """An access to the Private Peripheral Bus, which is refused to unprivileged code."""
    lines = [literal("r1", source.choice(SYSTEM)), "movs r0, #0"]
    return lines + in_block(source, source.choice(["ldr r2, [r1]", "str r0, [r1]"]))


def fetch_unmapped(source):
    """A jump to memory that isn't there."""
    return jump(source, source.choice(UNMAPPED) & ~3 | source.choice([1, 3]))


def fetch_never(source):
    """A jump to where code is never fetched."""
    return jump(source, source.choice(NEVER + [0x40000000, 0xE0000000, 0xE000ED00]) & ~3 | source.choice([1, 3]))


def data_region(source):
    """An access to the memory in which a case has its regions."""
    ends = [0x1C, 0x3C, 0x5C, 0x7C, 0xFC, 0xFE, 0x3D, 0x1E]
    offset = source.randrange(0, 0x180, 4) if source.random() < 0.7 else source.choice(ends)
    kind = source.choice([ANY, ANY, HALF, BYTE, SEVERAL])
    offset &= ~3 if kind is SEVERAL else ~0
    return [literal("r1", WINDOW + offset)] + in_block(source, source.choice(kind))


def fetch_region(source):
    """A jump to that memory, where an instruction jumps to R2, which is beyond the piece."""
    offset = source.randrange(0, 0x180, 2)
    lines = [literal("r1", WINDOW + offset), literal("r0", 0x47104710), "adr.w r2, 7f", "orr r2, r2, #1"]
    return lines + ["str r0, [r1]", "str r0, [r1, #4]", "orr r1, r1, #1"] + in_block(source, source.choice(["bx r1", "blx r1"]), True)


def random_instruction(source):
    """Any instruction but a branch, most of whose addresses aren't there."""
    text = random_code.plain(source)
    return in_block(source, encoded(int.from_bytes(text, "little")) if len(text) == 2 else encoded(swapped(text)))


FAULTS = [
    undefined, undefined, no_coprocessor, unaligned, unaligned, divide, invalid_state, data_unmapped, data_unmapped,
    data_system, fetch_unmapped, fetch_never, random_instruction, random_instruction,
]
REGION_FAULTS = [data_region, data_region, data_region, fetch_region]


def line_bits(source):
    """Some lines, as the bits of ISPR."""
    count = source.choice([1, 1, 2, 3, 5])
    return sum({1 << source.choice(LINES) for _ in range(count)})


def supervisor_call(source):
    """SVC."""
    return in_block(source, f"svc #{source.randrange(256)}")


def pend_system(source):
    """PendSV, SysTick or both; seldom NMI."""
    bits = source.choice([1 << 28, 1 << 26, 1 << 28 | 1 << 26, 1 << 28 | 1 << 26, 1 << 31])
    return [literal("r1", ICSR), literal("r0", bits)] + in_block(source, "str r0, [r1]")


def pend_lines(source):
    """Lines become pending by ISPR."""
    return [literal("r1", ISPR), literal("r0", line_bits(source))] + in_block(source, "str r0, [r1]")


def pend_line(source):
    """A line becomes pending by STIR."""
    return [literal("r1", STIR), f"movs r0, #{source.choice(LINES)}"] + in_block(source, "str r0, [r1]")


def pend_several(source):
    """Lines and system exceptions that become pending under PRIMASK, which then is cleared."""
    lines = ["cpsid i"] + pend_lines(source) + pend_system(source)
    return lines + [source.choice(["cpsie i", "movs r0, #0\n msr primask, r0"])]


TRIGGERS = [supervisor_call, supervisor_call, pend_system, pend_system, pend_lines, pend_lines, pend_line, pend_several]


def mask(source):
    """A change of PRIMASK, BASEPRI or, seldom, FAULTMASK."""
    kind = source.random()
    if kind < 0.35:
        return ["cpsid i"]
    if kind < 0.5:
        return ["cpsie i"]
    if kind < 0.95:
        name = source.choice(["basepri", "basepri", "basepri_max"])
        return [f"movs r0, #{source.choice([0, 0x10, 0x20, 0x40, 0x60, 0x80, 0xC0])}", f"msr {name}, r0"]
    return [source.choice(["cpsid f", "cpsie f"])]


def sound(source):
    """Code that is no fault."""
    return source.choice([["nop"], [literal("r1", WINDOW + 64), "ldr r0, [r1]"], ["adds r2, r0, r0"], ["isb"]])


# Values that are no EXC_RETURN of the place, or are one of another place.
RETURNS = [0xFFFFFFF0 | low for low in range(16)]


def bad_return(source):
    """A return by a value that may not fit."""
    value = source.choice(RETURNS + [0xFFFFFFF1, 0xFFFFFFF9, 0xFFFFFFFD] * 3)
    kind = source.randrange(4)
    lines = [literal("r1", value)]
    if kind == 0:
        return lines + ["push {r1}", "pop {pc}"]
    if kind == 1:
        return lines + [literal("r2", WINDOW + 16), "str r1, [r2]", "ldr pc, [r2]"]
    if kind == 2:
        return ["mvn lr, #0", f"sub lr, lr, #{0xFFFFFFFF - value}", "bx lr"]
    return lines + ["bx r1"]


def bad_frame(source):
    """A stack pointer or a frame of the interrupted code that is changed, so that the handler's return is a fault."""
    kind = source.randrange(5)
    if kind == 0:
        places = [0x20002000, 0x20001FF0, 0x1FFFFFF0, 0x30000000, 0x20001FE8, 0x50000000, 0x80000000, 0x20000800]
        address = source.choice(places)
        return [literal("r1", address), "msr psp, r1"]
    if kind == 1:
        address = source.choice([0x20002000, 0x20001FF0, 0x1FFFFFF0, 0x30000000])
        return [literal("r1", address), "msr msp, r1"]
    stack = source.choice(["psp", "msp"])
    if kind == 2:
        bits = source.choice([0x01000000, 0xFF, 0x01000000])
        return [f"mrs r1, {stack}", "ldr r0, [r1, #28]", f"bic r0, r0, #{bits}", "str r0, [r1, #28]"]
    if kind == 3:
        bits = source.choice([1, 3, 11, 14, 16, 40, 255])
        return [f"mrs r1, {stack}", "ldr r0, [r1, #28]", f"orr r0, r0, #{bits}", "str r0, [r1, #28]"]
    return [f"mrs r1, {stack}", literal("r0", source.choice([0x30000000, 0x50000000, 0xA0000002, 0x20000800])), "str r0, [r1, #24]"]
