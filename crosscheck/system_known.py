"""What QEMU 7.2 is known to do otherwise with the system registers. docs/CROSSCHECK.md says why each is so."""

SYST_CSR, SYST_CVR = 0xE000E010, 0xE000E018
CPUID, ICSR, SCR, CCR = 0xE000ED00, 0xE000ED04, 0xE000ED10, 0xE000ED14
SHPR3, SHCSR = 0xE000ED20, 0xE000ED24

# The bits of a register that aren't compared, by its address: CLKSOURCE; all of CPUID; RETTOBASE; all of SCR but SEVONPEND;
# STKALIGN; and the priority and the active bit of DebugMonitor.
BITS = {SYST_CSR: 1 << 2, CPUID: 0xFFFFFFFF, ICSR: 1 << 11, SCR: 0xFFFFFFEF, CCR: 1 << 9, SHPR3: 0xFF, SHCSR: 1 << 8}

# Those that aren't compared either once SysTick counts: COUNTFLAG, the counter, and PENDSTSET with what it makes pending.
COUNTING = {SYST_CSR: 1 << 16, SYST_CVR: 0xFFFFFFFF, ICSR: 1 << 26 | 0x1FF << 12}


def hidden(address, counts):
    """Returns the bits that aren't compared of what is read at an address, where SysTick counts or not."""
    register = address & ~3
    bits = BITS.get(register, 0) | (COUNTING.get(register, 0) if counts else 0)
    return bits >> 8 * (address & 3)


def masked(case, line):
    """Returns a line without the bits that aren't compared; a line that isn't whole stays as it is."""
    words = line.split()
    if len(words) != len(case):
        return line
    counts, left = False, []
    for (name, _, address, value), word in zip(case, words):
        counts = counts or name.startswith("write") and address == SYST_CSR and value & 1 == 1
        bits = hidden(address, counts) if name.startswith("read") else 0
        left.append(f"{int(word, 16) & ~bits:08X}")
    return " ".join(left)
