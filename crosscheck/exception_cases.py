"""Random cases of exceptions: settings of system registers, a stack, privilege and masks, code of Thread mode, and actions, which
are code for the handlers of some exceptions."""

import exception_code as code

# As in exceptions.s.
CODE, WINDOW, VECTORS, PSP_TOP, TOP = 0x20000400, 0x20000800, 0x20000200, 0x20000C00, 0x20001800
MAX_ACTIONS = 5

CCR, AIRCR, SHCSR, VTOR = 0xE000ED14, 0xE000ED0C, 0xE000ED24, 0xE000ED08
SHPR, IPR, ISER = 0xE000ED18, 0xE000E400, 0xE000E100
MPU_CTRL, MPU_RBAR, MPU_RASR = 0xE000ED94, 0xE000ED9C, 0xE000EDA0

NAMES = {2: "NMI", 3: "HardFault", 4: "MemManage", 5: "BusFault", 6: "UsageFault", 11: "SVCall", 14: "PendSV", 15: "SysTick"}

PRIORITIES = [0, 0x10, 0x20, 0x20, 0x40, 0x40, 0x60, 0x80, 0x80, 0xA0, 0xC0, 0xC8, 0xFF]

# What has actions: SVCall and the faults more often.
LIKELY = [11] * 6 + [3] * 3 + [4, 5, 6, 6, 14, 14, 15, 15, 2] + [16 + line for line in code.LINES]

# Regions of the size exponent and the permissions: all RAM, and flash, which all code may run.
ALL_RAM = (0x20000000, 0x03000019)
ALL_FLASH = (0x00000000, 0x06000021)


def name_of(exception):
    """Returns the name of an exception."""
    return NAMES.get(exception, f"IRQ{exception - 16}")


class Case:
    """A case, and what it takes alone."""

    def __init__(self):
        """A case that does nothing: privileged, on MSP, nothing masked."""
        self.settings, self.thread, self.actions = [], [], {}
        self.uses_psp = self.is_unprivileged = self.is_alone = False
        self.psp, self.msp, self.flags, self.masks, self.cleared = PSP_TOP, TOP, 0, [0, 0, 0], 0xFFFFFFFF

    def text(self, number):
        """Returns the case as assembly text of one entry."""
        kind = 1 | self.uses_psp << 2 | self.is_unprivileged << 1
        words = [kind, 0, self.psp, self.msp, self.flags, *self.masks, self.cleared, 0]
        lines = [f"entry{number}:", " .word " + ", ".join(f"{word:#x}" for word in words)]
        for exception in self.actions:
            lines.append(f" .word {exception}, CODE + 1 + (action{number}_{exception} - entry{number})")
        lines += [" .word 0, 0"] * (MAX_ACTIONS - len(self.actions))
        lines += [f" .word {address:#x}, {value}" for address, value in self.settings] + [" .word 0"]
        lines += [f" .space 0x200 - (. - entry{number})"] + self.thread + [" ldr pc, =finish_thread", " .ltorg"]
        for exception, action in self.actions.items():
            lines += [" .balign 4", f"action{number}_{exception}:"] + action + [" ldr pc, =finish_action", " .ltorg"]
        return "\n".join(lines + [f" .space ENTRY - (. - entry{number})"]) + "\n"

    def described(self):
        """Returns the case as text for a person."""
        lines = [f"{'unprivileged' if self.is_unprivileged else 'privileged'} Thread mode on {'PSP' if self.uses_psp else 'MSP'}"]
        lines[0] += f", PSP {self.psp:08X}, MSP {self.msp:08X}, flags {self.flags:08X}"
        lines[0] += ", PRIMASK {0:d}, BASEPRI {1:02X}, FAULTMASK {2:d}".format(*self.masks)
        lines[0] += f", handlers clear {self.cleared:08X} of CFSR"
        settings = [f"{at:08X}={value if value == 'enter' else f'{value:08X}'}" for at, value in self.settings]
        lines.append("settings: " + " ".join(settings))
        for name, pieces in [("Thread mode", self.thread)] + [(name_of(x), action) for x, action in self.actions.items()]:
            lines.append(f"{name}: " + "; ".join(line.strip() for line in "\n".join(pieces).splitlines()))
        return "\n".join(f"    {line}" for line in lines)


def pieces(source, kinds, count):
    """Returns some pieces of code, behind each of which code goes on after a fault."""
    lines = []
    for _ in range(count):
        lines += [" adr.w r11, 7f"] + [f" {line}" for line in source.choice(kinds)(source)] + ["7:"]
    return lines


def random_priorities(source):
    """Returns settings of PRIGROUP, of the priorities of all exceptions, and of what is enabled."""
    settings = [(AIRCR, 0x05FA0000 | source.choice([0, 0, 0, 3, 4, 5, 6, 7]) << 8)]
    for address in [SHPR, SHPR + 4, SHPR + 8] + [IPR + 4 * number for number in range(8)]:
        settings.append((address, sum(source.choice(PRIORITIES) << 8 * byte for byte in range(4))))
    enabled = source.choice([0xFFFFFFFF, 0xFFFFFFFF, source.getrandbits(32)])
    return settings + [(ISER, enabled), (SHCSR, source.choice([0, 7, 7, source.randrange(8)]) << 16)]


def random_control(source):
    """Returns a setting of CCR: UNALIGN_TRP, DIV_0_TRP, USERSETMPEND, and seldom NONBASETHRDENA."""
    bits = (source.random() < 0.5) << 3 | (source.random() < 0.7) << 4 | (source.random() < 0.4) << 1
    return [(CCR, 0x200 | bits | (source.random() < 0.06))]


def random_region(source):
    """Returns RBAR and RASR of a region in the memory for accesses, which mostly is small."""
    power = source.choice([5, 5, 6, 7, 8])
    base = WINDOW + source.randrange(0, 0x200, 1 << power)
    subregions = source.getrandbits(8) if power == 8 and source.random() < 0.5 else 0
    permission = source.choice([0, 1, 2, 3, 5, 6])
    return base, (source.random() < 0.3) << 28 | permission << 24 | subregions << 8 | (power - 1) << 1 | 1


def stack_region(source):
    """Returns RBAR and RASR of a region in which the stacks end, or of the code."""
    places = [(PSP_TOP - 32, 5), (PSP_TOP - 64, 5), (PSP_TOP - 256, 8), (TOP - 32, 5), (TOP - 256, 8), (CODE, 10)]
    base, power = source.choice(places)
    return base, (source.random() < 0.3) << 28 | source.choice([0, 1, 2, 5, 6]) << 24 | (power - 1) << 1 | 1


def random_regions(source):
    """Returns settings of the MPU."""
    regions = [ALL_RAM] + [random_region(source) for _ in range(source.randrange(1, 5))]
    if source.random() < 0.3:
        regions.append(stack_region(source))
    settings = []
    for number, (base, attributes) in enumerate(regions + [ALL_FLASH]):
        settings += [(MPU_RBAR, base | 0x10 | number), (MPU_RASR, attributes)]
    return settings + [(MPU_CTRL, 1 | (source.random() < 0.3) << 1 | (source.random() < 0.6) << 2)]


def random_vectors(source, case):
    """A vector that is no address of code, or a table that ends with RAM before the vectors of the last lines."""
    case.is_alone = True
    table = VECTORS
    if source.random() < 0.4:
        table = 0x20001F80
        case.settings += [(table + 4 * number, "enter") for number in range(2, 16)]
    else:
        value = source.choice([0x20000600, 0x30000001, 0xA0000001, 0x00000100, 0xE0000001, 0x20002001])
        number = source.choice([4, 5, 6, 11, 14, 15] + [16 + line for line in code.LINES])
        case.settings += [(VECTORS + 4 * number, value)]
    case.settings += [(VTOR, table)]


def random_stack(source, case):
    """A stack pointer that isn't a multiple of 8, or of which the frame is partly outside RAM."""
    kind = source.random()
    if kind < 0.75:
        case.psp, case.msp = case.psp - source.choice([0, 4]), case.msp - source.choice([0, 4])
    elif kind < 0.95:
        case.psp = source.choice([0x1FFFFFF8, 0x20002010, 0x20002008, 0x30000000, 0x50000020])
    else:
        case.msp = source.choice([0x20002010, 0x20002008, 0x30000000, 0x50000000])


def random_action(source, faults):
    """Returns the code of an action."""
    kind = source.random()
    lines = pieces(source, [code.mask], 1) if source.random() < 0.2 else []
    if kind < 0.4:
        return lines + pieces(source, faults, 1)
    if kind < 0.6:
        return lines + pieces(source, code.TRIGGERS, source.choice([1, 2]))
    if kind < 0.75:
        return lines + pieces(source, faults + code.TRIGGERS, 2)
    if kind < 0.9:
        return lines + pieces(source, [code.bad_return], 1)
    return lines + pieces(source, [code.bad_frame], 1)


def random_case(source):
    """Returns a case."""
    case = Case()
    case.settings += random_priorities(source) + random_control(source)
    case.uses_psp, case.is_unprivileged = source.random() < 0.5, source.random() < 0.35
    case.flags = source.getrandbits(5) << 27
    case.cleared = source.choice([0xFFFFFFFF, 0xFFFFFFFF, 0x00041818])
    random_stack(source, case)
    faults = code.FAULTS
    if source.random() < 0.3:
        case.settings += random_regions(source)
        faults = faults + code.REGION_FAULTS * 4
    if source.random() < 0.25:
        case.masks = [source.random() < 0.5, source.choice([0, 0, 0x20, 0x40, 0x80]), source.random() < 0.05]
    if source.random() < 0.05:
        random_vectors(source, case)
    kinds = source.choice([faults, faults, code.TRIGGERS, code.TRIGGERS, faults + code.TRIGGERS + [code.mask, code.sound]])
    case.thread = pieces(source, kinds, source.choice([1, 1, 2, 3]))
    if source.random() < 0.7:
        for _ in range(source.randrange(1, MAX_ACTIONS + 1)):
            case.actions[source.choice(LIKELY)] = random_action(source, faults)
    return case


def piece(*lines):
    """Returns a piece of code, behind which code goes on after a fault."""
    return [" adr.w r11, 7f"] + [f" {line}" for line in lines] + ["7:"]


def fixed_case(*lines, settings=(), actions=None, **fields):
    """Returns a case of one piece of code in Thread mode."""
    case = Case()
    case.thread, case.settings, case.actions = piece(*lines), list(settings), actions or {}
    for name, value in fields.items():
        setattr(case, name, value)
    return case


def fixed_cases():
    """Returns the smallest case of each known deviation (exception_known.py), in its order."""
    regions = [(MPU_RBAR, 0x20000010), (MPU_RASR, ALL_RAM[1]), (MPU_RBAR, 0x200008B1), (MPU_RASR, 0x9)]
    regions += [(MPU_RBAR, 0x12), (MPU_RASR, ALL_FLASH[1]), (MPU_CTRL, 1)]
    eighths = [(MPU_RBAR, 0x20000010), (MPU_RASR, ALL_RAM[1]), (MPU_RBAR, 0x20000811), (MPU_RASR, 0x010F), *regions[4:]]
    number = piece("mrs r1, msp", "ldr r0, [r1, #28]", "orr r0, r0, #0x1f0", "str r0, [r1, #28]", "ldr r1, =0xfffffff1", "bx r1")
    disable = piece("ldr r1, =0xe000e180", "ldr r0, =0x00010000", "str r0, [r1]")
    return [
        fixed_case("svc #0", masks=[1, 0, 0]),
        fixed_case("ldr r1, =0x20000602", "bx r1"),
        fixed_case("ldr r1, =0x30000000", "bx r1"),
        fixed_case(".inst.n 0xb650"),
        fixed_case(".inst.w 0xfa15faa2"),
        fixed_case(".inst.w 0xef000110"),
        fixed_case("svc #0", uses_psp=True, actions={11: piece("mrs r1, psp", "movs r0, #3", "strb r0, [r1, #28]")}),
        fixed_case("svc #0", "ldr r1, =0xfffffff9", "bx r1", actions={11: number}),
        fixed_case("ldr r1, =0x2000089e", "str r0, [r1]", settings=regions),
        fixed_case("udf #0", actions={3: piece("cpsid f", "ldr r1, =0xe000ed04", "ldr r0, =0x80000000", "str r0, [r1]")}),
        fixed_case(
            "ldr r1, =0xe000e200", "ldr r0, =0x00010000", "str r0, [r1]",
            settings=[(0x20001F80 + 4 * x, "enter") for x in range(2, 16)] + [(VTOR, 0x20001F80), (ISER, 0x10000)],
            actions={3: disable}, is_alone=True,
        ),
        fixed_case("ldr r1, =0x30000001", "ldr r0, [r1]"),
        fixed_case("ldr r1, =0x00000100", "str r0, [r1]"),
        fixed_case("ldr r1, =0x20001ffc", "ldm r1, {r2, r3}"),
        fixed_case("ldr r1, =0x20000802", "strex r3, r2, [r1]"),
        fixed_case("svc #0", actions={11: piece("mrs r1, msp", "ldr r0, =0x00000800", "str r0, [r1, #28]")}),
        fixed_case("ldr r1, =0x2000081c", "ldr r0, [r1]", "ldr r0, [r1, #4]", settings=eighths),
    ]
