"""The kinds of differences that are known, with what the manual (ARM DDI 0403) says there."""

import re

# How arm-none-eabi-objdump writes that an encoding is UNDEFINED.
UNDEFINED = re.compile(r"UNDEFINED|undefined|\?\?|<und>")

# What marm stops by name at.
NAMES = {
    "unpredictable encoding": "a bit printed as (0) or (1) is otherwise, which is UNPREDICTABLE",
    "unpredictable registers": "a register that the row's pseudocode calls UNPREDICTABLE",
    "unpredictable stored-base": "STM with Rn in the list and not its lowest: the value stored is UNKNOWN",
    "unpredictable empty-list": "a list without a register, or one of 32 bits with fewer than two, is UNPREDICTABLE",
    "unpredictable immediate": "ThumbExpandImm_C() of a byte 0 in the patterns 01, 10 and 11 is UNPREDICTABLE",
    "unpredictable bit-field": "a bit field whose msb is below its lsb, or that ends above bit 31, is UNPREDICTABLE",
    "unpredictable it-block": "IT with firstcond 1111, or 1110 with more than one bit in the mask, is UNPREDICTABLE",
    "unpredictable special-register": "a special register or a mask that isn't in the table of MSR and MRS is UNPREDICTABLE",
    "unpredictable load-pc": "LDR to the PC from an address that isn't a multiple of 4 is UNPREDICTABLE",
    "unpredictable literal-pc": "LDRD (literal) where the PC isn't a multiple of 4 is UNPREDICTABLE",
}

# Beginnings of the words that arm-none-eabi-objdump, which knows all architectures at once, has for what isn't in ARMv7-M.
ELSEWHERE = {
    "the DSP extension (ARMv7E-M)": "smla smlsd smlsl smlal smmla smmls smmul smuad smul smusd umaal usad sxtab uxtab sxtah "
    "uxtah sxtb16 uxtb16 pkh ssat16 usat16 sel qadd qsub qdadd qdsub qasx qsax sadd ssub sasx ssax shadd shsub shasx shsax "
    "uadd usub uasx usax uhadd uhsub uhasx uhsax uqadd uqsub uqasx uqsax",
    "ARMv7-A and R": "blx smc hvc eret setend strexd ldrexd srs rfe cps bxj msr mrs subs dbg isb dsb clrex sevl pldw",
    "ARMv8": "setpan hlt lda stl crc32 sg bxns blxns tt dls wls le bf cs cinc cset cneg csinv csinc csneg esb ssbb pssbb tsb csdb "
    "pac aut bti clrm vscclrm lctp vctp sqrshr uqrshl asrl lsll lsrl sqshl srshr uqshl urshr dcps sb",
    "floating point, Advanced SIMD and other coprocessors": "v fld fst sha aes cx cf lf sf wld wst ldf stf ldc stc mcr mrc cdp",
}


def is_coprocessor(encoding):
    """Whether the first halfword is 111x11.., the space of the coprocessors."""
    return encoding > 0xFFFF and encoding >> 26 & 0b111011 == 0b111011


def of_elsewhere(word):
    """Which architecture has an instruction of that word."""
    for name, beginnings in ELSEWHERE.items():
        if word.startswith(tuple(beginnings.split())):
            return name
    return None


def of_undefined(encoding, llvm, gnu):
    """Why marm finds UNDEFINED what a tool gives a name."""
    if gnu.startswith("udf"):
        return "UDF is permanently UNDEFINED"
    if llvm != "<unknown>":
        return None
    elsewhere = of_elsewhere(gnu)
    if elsewhere:
        return f"llvm-objdump agrees; the other tool finds an instruction of {elsewhere}"
    return of_single_access(encoding)


def of_single_access(encoding):
    """Why an encoding among the loads and stores of one register is UNDEFINED, which arm-none-eabi-objdump doesn't see."""
    if encoding >> 25 != 0b1111100:
        return None
    if encoding >> 20 & 1 == 0 and encoding >> 16 & 15 == 15:
        return "llvm-objdump agrees; a store with Rn 1111 is UNDEFINED"
    if encoding >> 23 & 1 == 0 and encoding >> 11 & 1 == 0 and encoding >> 6 & 0b11111 != 0:
        return "llvm-objdump agrees; with bit 11 clear, bits 10:6 are 00000 or it is UNDEFINED"
    return None


def has_wrong_registers(llvm, gnu):
    """Returns whether a text has SP or PC, a register twice, no mask, two low registers in CMP, or two fields for Rm."""
    if re.match(r"cmp r[0-7], r[0-7]$|(rev|rbit|clz)", llvm):
        return True
    return bool(re.search(r"\b(sp|pc)\b|\b(r\d+|ip|fp|sl|lr)\b.*\b\2\b|none", f"{gnu} {llvm}"))


def of_name(name, llvm, gnu):
    """Why marm stops by name, unless the text has nothing that fits the name."""
    if name.endswith("registers") and not has_wrong_registers(llvm, gnu):
        return None
    return NAMES.get(name)


def of_carried_out(encoding):
    """Why marm carries out what llvm-objdump doesn't know."""
    if encoding >> 16 & 0xFE70 == 0xF830 and encoding >> 12 & 15 == 15:
        return "LDRH or LDRSH with Rt 1111 is an unallocated memory hint, which does nothing"
    return None


def of_doubted(llvm):
    """Why marm carries out what a tool finds UNPREDICTABLE."""
    if re.match(r"(ldrd|strd) .*\[sp(, #-?\d+\]!|\], )", llvm):
        return "LDRD or STRD with write-back to SP: of n, UNPREDICTABLE are n = t, n = t2, and 15 in STRD"
    return None


def reason(ending, encoding, llvm, gnu):
    """Why marm says what it says of an encoding, or None."""
    if ending == "UNDEFINED":
        return of_undefined(encoding, llvm, gnu)
    if ending == "NOCP":
        return "no coprocessor is there: UsageFault NOCP" if is_coprocessor(encoding) else None
    if ending == "SVC":
        return "SVC is an exception" if llvm.startswith("svc") else None
    if ending == "carried out":
        return of_carried_out(encoding)
    return of_name(ending, llvm, gnu)
