"""The processor of tools/pdp11.py, which is what a program runs on that is started in the simulated machine: tables by hand of its
instructions, addressing modes, traps and serial line, and instructions by chance beside SIMH's PDP-11, where that is installed."""
import collections
import re
import unittest

import cases  # finds tools/
import instruction_cases
import pdp11
import simh
from programs import ECHO, HELLO_TEXT, placed, words_of_hello

AT, STACK = 0o1000, 0o4000

# Condition codes as they are written here: a letter for each that is set.
BITS = {"N": 0o10, "Z": 0o04, "V": 0o02, "C": 0o01}


def codes_of(text):
    return sum(BITS[letter] for letter in text)


def letters_of(status):
    return "".join(letter for letter, bit in BITS.items() if status & bit)


def processor_with(code, registers=(), status=0, memory=None, odd_addresses_trap=False):
    """A processor in a memory of 4,096 words, at an instruction, with registers from R0 on."""
    words = [0] * 4096
    for address, word in {**{AT + 2 * place: word for place, word in enumerate(code)}, **(memory or {})}.items():
        words[address // 2] = word
    processor = pdp11.Processor(pdp11.Bus(words, pdp11.SerialLine(), odd_addresses_trap))
    processor.registers = [*registers, *[0] * (6 - len(registers)), STACK, AT]
    processor.status = status
    return processor


# An instruction of one operand, R0 and the codes before, and R0 and the codes after.
ONE_OPERAND = (
    (0o005000, 0o123456, "NVC", 0o000000, "Z", "CLR"),
    (0o105000, 0o123456, "NVC", 0o123400, "Z", "CLRB clears the low byte alone"),
    (0o005100, 0o177777, "NV", 0o000000, "ZC", "COM of all ones; C is set"),
    (0o005100, 0o000000, "ZV", 0o177777, "NC", "COM of 0"),
    (0o105100, 0o052577, "", 0o052600, "NC", "COMB leaves the high byte"),
    (0o005200, 0o077777, "C", 0o100000, "NVC", "INC from the largest number to the smallest; C stays"),
    (0o005200, 0o177777, "", 0o000000, "Z", "INC from -1 to 0 carries nothing into C"),
    (0o105200, 0o000177, "", 0o000200, "NV", "INCB: the largest byte"),
    (0o105200, 0o000377, "C", 0o000000, "ZC", "INCB carries nothing into the high byte"),
    (0o005300, 0o100000, "", 0o077777, "V", "DEC from the smallest number to the largest"),
    (0o005300, 0o000000, "C", 0o177777, "NC", "DEC from 0; C stays"),
    (0o005300, 0o000001, "V", 0o000000, "Z", "DEC to 0"),
    (0o105300, 0o000200, "", 0o000177, "V", "DECB: the smallest byte"),
    (0o005400, 0o100000, "", 0o100000, "NVC", "NEG: the smallest number has none"),
    (0o005400, 0o000000, "NVC", 0o000000, "Z", "NEG of 0; the only one without C"),
    (0o005400, 0o000001, "", 0o177777, "NC", "NEG of 1"),
    (0o105400, 0o000200, "", 0o000200, "NVC", "NEGB: the smallest byte has none"),
    (0o005500, 0o077777, "C", 0o100000, "NV", "ADC past the largest number"),
    (0o005500, 0o177777, "C", 0o000000, "ZC", "ADC carries on"),
    (0o005500, 0o177777, "NV", 0o177777, "N", "ADC of no carry"),
    (0o105500, 0o123777, "C", 0o123400, "ZC", "ADCB carries into C and not into the high byte"),
    (0o005600, 0o100000, "C", 0o077777, "V", "SBC past the smallest number"),
    (0o005600, 0o000000, "C", 0o177777, "NC", "SBC borrows on"),
    (0o005600, 0o000001, "C", 0o000000, "Z", "SBC to 0"),
    (0o005600, 0o000000, "", 0o000000, "Z", "SBC of no borrow"),
    (0o005700, 0o100000, "ZVC", 0o100000, "N", "TST clears V and C"),
    (0o105700, 0o100000, "NVC", 0o100000, "Z", "TSTB looks at the low byte"),
    (0o105700, 0o000200, "C", 0o000200, "N", "TSTB: bit 7 is the sign, by which a status register is asked"),
    (0o006000, 0o000001, "C", 0o100000, "NC", "ROR: C comes in above, bit 0 goes out"),
    (0o006000, 0o000001, "", 0o000000, "ZVC", "ROR of 1: V where N and C differ"),
    (0o106000, 0o123401, "C", 0o123600, "NC", "RORB: C comes in at bit 7"),
    (0o006100, 0o100000, "C", 0o000001, "VC", "ROL: C comes in below, bit 15 goes out"),
    (0o006100, 0o040000, "", 0o100000, "NV", "ROL to a negative number"),
    (0o106100, 0o123600, "", 0o123400, "ZVC", "ROLB: bit 7 goes out"),
    (0o006200, 0o100001, "", 0o140000, "NC", "ASR keeps the sign"),
    (0o006200, 0o100000, "C", 0o140000, "NV", "ASR: C is cleared"),
    (0o106200, 0o000201, "", 0o000300, "NC", "ASRB keeps bit 7"),
    (0o006300, 0o040000, "", 0o100000, "NV", "ASL: the sign changes"),
    (0o006300, 0o100000, "", 0o000000, "ZVC", "ASL: the sign goes out"),
    (0o106300, 0o123700, "", 0o123600, "NC", "ASLB leaves the high byte"),
    (0o000300, 0o100000, "VC", 0o000200, "N", "SWAB: N is that of the new low byte"),
    (0o000300, 0o000377, "VC", 0o177400, "Z", "SWAB: so is Z"),
    (0o006700, 0o123456, "NVC", 0o177777, "NC", "SXT of N"),
    (0o006700, 0o123456, "VC", 0o000000, "ZC", "SXT of no N"),
    (0o106700, 0o123456, "NC", 0o000011, "C", "MFPS: the codes themselves, and then those of the byte"),
    (0o106400, 0o000005, "NV", 0o000005, "ZC", "MTPS sets the codes"),
)

# An instruction of R0 and R1, both before, the codes before, R1 after, and the codes after.
TWO_OPERANDS = (
    (0o010001, 0o100000, 0o000001, "ZVC", 0o100000, "NC", "MOV: C stays"),
    (0o110001, 0o000200, 0o000001, "V", 0o177600, "N", "MOVB to a register fills it with the sign"),
    (0o110001, 0o123577, 0o177777, "C", 0o000177, "C", "so it does with a positive byte"),
    (0o020001, 0o000001, 0o000002, "", 0o000002, "NC", "CMP: the source less the destination borrows"),
    (0o020001, 0o100000, 0o000001, "C", 0o000001, "V", "CMP: the smallest number less 1"),
    (0o020001, 0o077777, 0o177777, "", 0o177777, "NVC", "CMP: the largest number less -1"),
    (0o020001, 0o123456, 0o123456, "NVC", 0o123456, "Z", "CMP of equals"),
    (0o120001, 0o123401, 0o000001, "C", 0o000001, "Z", "CMPB looks at the low bytes"),
    (0o120001, 0o000200, 0o000001, "", 0o000001, "V", "CMPB: the smallest byte less 1"),
    (0o030001, 0o100000, 0o177777, "ZVC", 0o177777, "NC", "BIT: the common bits; nothing is written"),
    (0o030001, 0o000017, 0o000020, "C", 0o000020, "ZC", "BIT: none in common"),
    (0o130001, 0o000200, 0o000377, "", 0o000377, "N", "BITB"),
    (0o040001, 0o000017, 0o123456, "VC", 0o123440, "NC", "BIC clears the source's bits"),
    (0o140001, 0o177400, 0o123456, "", 0o123456, "", "BICB leaves the high byte"),
    (0o050001, 0o100000, 0o000001, "V", 0o100001, "N", "BIS"),
    (0o150001, 0o177400, 0o000000, "", 0o000000, "Z", "BISB leaves the high byte"),
    (0o060001, 0o077777, 0o000001, "", 0o100000, "NV", "ADD past the largest number"),
    (0o060001, 0o177777, 0o000001, "", 0o000000, "ZC", "ADD carries"),
    (0o060001, 0o100000, 0o100000, "", 0o000000, "ZVC", "ADD: the smallest number twice"),
    (0o060001, 0o177777, 0o177777, "V", 0o177776, "NC", "ADD: -1 twice"),
    (0o060001, 0o000001, 0o177776, "", 0o177777, "N", "ADD of two signs can't pass a border"),
    (0o160001, 0o000001, 0o100000, "", 0o077777, "V", "SUB: the destination less the source"),
    (0o160001, 0o000001, 0o000000, "", 0o177777, "NC", "SUB borrows"),
    (0o160001, 0o000140, 0o000137, "", 0o177777, "NC", "SUB: a character below 140"),
    (0o074001, 0o177777, 0o100000, "VC", 0o077777, "C", "XOR: C stays"),
    (0o074001, 0o123456, 0o123456, "N", 0o000000, "Z", "XOR of equals"),
)

# The operand of TST or TSTB, the words behind it, a register and its value before and after, and what is tested. In memory each word
# from 002000 on holds its own address, but for 002010, which holds 002021.
MODES = (
    (0o005702, (), 2, 0o2000, 0o2000, 0o002000, "R2"),
    (0o005712, (), 2, 0o2000, 0o2000, 0o002000, "(R2)"),
    (0o005722, (), 2, 0o2000, 0o2002, 0o002000, "(R2)+ steps by a word"),
    (0o105722, (), 2, 0o2001, 0o2002, 0o000004, "(R2)+ of a byte steps by a byte"),
    (0o105726, (), 6, 0o2000, 0o2002, 0o000000, "(SP)+ steps by a word always"),
    (0o005732, (), 2, 0o2010, 0o2012, 0o002020, "@(R2)+: a word has no odd address"),
    (0o105732, (), 2, 0o2010, 0o2012, 0o000004, "@(R2)+ of a byte steps by a word, for that is what an address is"),
    (0o005742, (), 2, 0o2002, 0o2000, 0o002000, "-(R2)"),
    (0o105742, (), 2, 0o2002, 0o2001, 0o000004, "-(R2) of a byte"),
    (0o105746, (), 6, 0o2002, 0o2000, 0o000000, "-(SP) of a byte"),
    (0o005752, (), 2, 0o2012, 0o2010, 0o002020, "@-(R2)"),
    (0o005762, (0o000004,), 2, 0o2000, 0o2000, 0o002004, "4(R2)"),
    (0o005762, (0o177776,), 2, 0o2002, 0o2002, 0o002000, "-2(R2): the sum wraps"),
    (0o005772, (0o000010,), 2, 0o2000, 0o2000, 0o002020, "@10(R2)"),
    (0o005727, (0o123456,), 7, 0o1000, 0o1004, 0o123456, "#123456"),
    (0o105727, (0o123456,), 7, 0o1000, 0o1004, 0o000056, "#123456 of a byte"),
    (0o005737, (0o002004,), 7, 0o1000, 0o1004, 0o002004, "@#2004"),
    (0o005767, (0o001000,), 7, 0o1000, 0o1004, 0o002004, "2004: from behind the word that says how far"),
    (0o005777, (0o001004,), 7, 0o1000, 0o1004, 0o002020, "@2010"),
)

# Instructions that have no byte form: with (R2)+, or (R1)+, a step is a word.
WORDS_ALONE = (
    (0o062102, 0o2002, 0o002000 + 0o002100, "ADD (R1)+, R2"),
    (0o162102, 0o2002, 0o002100 - 0o002000, "SUB (R1)+, R2, although its highest bit is set"),
)
WORDS_CHANGED = (
    (0o060322, 0o002103, "ADD R3, (R2)+"),
    (0o160322, 0o002075, "SUB R3, (R2)+"),
    (0o074322, 0o002103, "XOR R3, (R2)+"),
    (0o000322, 0o040004, "SWAB (R2)+"),
    (0o006722, 0o177777, "SXT (R2)+"),
)

# A branch, and whether it is taken behind CMP of two numbers: what a person means by it.
signed = lambda word: word - 0o200000 if word & 0o100000 else word
COMPARISONS = {
    "BR": (0o000400, lambda a, b: True),
    "BNE": (0o001000, lambda a, b: a != b),
    "BEQ": (0o001400, lambda a, b: a == b),
    "BGE": (0o002000, lambda a, b: signed(a) >= signed(b)),
    "BLT": (0o002400, lambda a, b: signed(a) < signed(b)),
    "BGT": (0o003000, lambda a, b: signed(a) > signed(b)),
    "BLE": (0o003400, lambda a, b: signed(a) <= signed(b)),
    "BHI": (0o101000, lambda a, b: a > b),
    "BLOS": (0o101400, lambda a, b: a <= b),
    "BHIS": (0o103000, lambda a, b: a >= b),
    "BLO": (0o103400, lambda a, b: a < b),
}
NUMBERS = (0, 1, 2, 0o77776, 0o77777, 0o100000, 0o100001, 0o177776, 0o177777)

# The other branches, and for which code they are taken where it is set, or clear.
CODE_BRANCHES = {"BPL": (0o100000, "N", False), "BMI": (0o100400, "N", True), "BVC": (0o102000, "V", False), "BVS": (0o102400, "V", True)}

# What traps, by its code, and through which vector.
TRAPS = (
    ((0o104000,), 0o030, "EMT"),
    ((0o104377,), 0o030, "EMT 377"),
    ((0o104400,), 0o034, "TRAP"),
    ((0o000003,), 0o014, "BPT"),
    ((0o000004,), 0o020, "IOT"),
    ((0o000007,), 0o010, "a reserved word"),
    ((0o070001,), 0o010, "MUL, an option"),
    ((0o075000,), 0o010, "FADD, an option"),
    ((0o170000,), 0o010, "floating point"),
    ((0o000101,), 0o004, "JMP to a register"),
    ((0o004501,), 0o004, "JSR to a register"),
    ((0o005737, 0o020000), 0o004, "a word past memory"),
    ((0o105737, 0o157777), 0o004, "a byte past memory"),
    ((0o005737, 0o177546), 0o004, "the line clock, of which there is none"),
    ((0o005737, 0o177776), 0o004, "the status word, which has no address in an LSI-11"),
)


class Instructions(unittest.TestCase):
    """One instruction each."""

    def after(self, code, *given, **named):
        processor = processor_with(code, *given, **named)
        processor.step()
        return processor

    def test_one_operand(self):
        for word, before, codes, value, wanted, reason in ONE_OPERAND:
            with self.subTest(reason):
                it = self.after([word], [before], codes_of(codes))
                self.assertEqual((f"{it.registers[0]:06o}", letters_of(it.status)), (f"{value:06o}", wanted))

    def test_two_operands(self):
        for word, source, target, codes, value, wanted, reason in TWO_OPERANDS:
            with self.subTest(reason):
                it = self.after([word], [source, target], codes_of(codes))
                self.assertEqual((f"{it.registers[1]:06o}", letters_of(it.status)), (f"{value:06o}", wanted))
                self.assertEqual(it.registers[0], source)

    def test_addressing_modes(self):
        memory = {address: address for address in range(0o2000, 0o2100, 2)} | {0o2010: 0o2021}
        for instruction, behind, number, before, after, value, reason in MODES:
            with self.subTest(reason):
                it = processor_with([instruction, *behind], memory=memory)
                if number != pdp11.PC:
                    it.registers[number] = before
                tested = []
                it.judge = lambda value, size, tested=tested: tested.append(value)
                it.step()
                self.assertEqual((f"{it.registers[number]:06o}", tested), (f"{after:06o}", [value]))
                self.assertEqual(it.registers[pdp11.PC], AT + 2 + 2 * len(behind))

    def test_bytes_in_memory(self):
        """A byte is written beside the other one of its word."""
        for address, wanted in ((0o2000, 0o123777), (0o2001, 0o177456)):
            it = self.after([0o112737, 0o000377, address], memory={0o2000: 0o123456})
            self.assertEqual(f"{it.bus.words[0o2000 // 2]:06o}", f"{wanted:06o}")
            self.assertEqual(it.registers[pdp11.PC], AT + 6)

    def test_words_alone(self):
        memory = {address: address for address in range(0o2000, 0o2200, 2)}
        for word, step, value, reason in WORDS_ALONE:
            it = self.after([word], [0, 0o2000, 0o2100], memory=memory)
            self.assertEqual((it.registers[1:3]), [step, value], reason)
        for word, value, reason in WORDS_CHANGED:
            it = self.after([word], [0, 0, 0o2100, 3], codes_of("N"), memory=memory)
            self.assertEqual((it.registers[2], f"{it.bus.words[0o2100 // 2]:06o}"), (0o2102, f"{value:06o}"), reason)

    def test_a_register_that_steps_is_both_operands(self):
        """MOV R2, (R2)+ stores what R2 was; MOV (R2)+, (R2) what lay there, behind it."""
        it = self.after([0o010222], [0, 0, 0o2000])
        self.assertEqual((it.bus.words[0o2000 // 2], it.registers[2]), (0o2000, 0o2002))
        it = self.after([0o012212], [0, 0, 0o2000], memory={0o2000: 0o123456})
        self.assertEqual((it.bus.words[0o2002 // 2], it.registers[2]), (0o123456, 0o2002))

    def test_branches_behind_a_comparison(self):
        for name, (branch, means) in COMPARISONS.items():
            for first in NUMBERS:
                for second in NUMBERS:
                    it = processor_with([0o020001, branch | 0o10], [first, second])
                    it.step()
                    it.step()
                    self.assertEqual(it.registers[pdp11.PC] == AT + 4 + 0o20, means(first, second), f"{name} {first:o} {second:o}")

    def test_branches_by_one_code(self):
        for name, (branch, letter, wanted) in CODE_BRANCHES.items():
            for codes in range(16):
                it = self.after([branch | 0o10], (), codes)
                self.assertEqual(it.registers[pdp11.PC] == AT + 2 + 0o20, bool(codes & BITS[letter]) == wanted, f"{name} {codes:o}")

    def test_how_far_a_branch_leads(self):
        for low, address in ((0o000, AT + 2), (0o001, AT + 4), (0o177, AT + 0o400), (0o200, AT - 0o376), (0o376, AT - 2), (0o377, AT)):
            self.assertEqual(self.after([0o000400 | low]).registers[pdp11.PC], address)

    def test_codes_that_are_set_and_cleared(self):
        for word, before, after in ((0o240, "NZVC", "NZVC"), (0o241, "NZVC", "NZV"), (0o254, "NZVC", "VC"), (0o257, "NZVC", ""),
                                    (0o261, "", "C"), (0o264, "N", "NZ"), (0o277, "", "NZVC")):
            self.assertEqual(letters_of(self.after([word], (), codes_of(before)).status), after)

    def test_sob(self):
        for before, after, address in ((2, 1, AT - 4), (1, 0, AT + 2), (0, 0o177777, AT - 4)):
            it = self.after([0o077503], [0, 0, 0, 0, 0, before], 0o17)
            self.assertEqual((it.registers[5], it.registers[pdp11.PC], it.status), (after, address, 0o17))

    def test_jumps(self):
        for code, address, reason in (
            ((0o000112,), 0o2000, "JMP (R2)"), ((0o000122,), 0o2000, "JMP (R2)+"), ((0o000137, 0o3000), 0o3000, "JMP @#3000"),
            ((0o000162, 0o10), 0o2010, "JMP 10(R2)"), ((0o000167, 0o10), AT + 0o14, "JMP .+14"),
        ):
            self.assertEqual(self.after(code, [0, 0, 0o2000]).registers[pdp11.PC], address, reason)

    def test_subroutines(self):
        it = self.after([0o004537, 0o2000], [0, 0, 0, 0, 0, 0o123456], memory={0o2000: 0o000205, STACK - 2: 0o177777})
        self.assertEqual(it.registers[5:], [AT + 4, STACK - 2, 0o2000])
        self.assertEqual(it.bus.words[(STACK - 2) // 2], 0o123456)
        it.step()
        self.assertEqual(it.registers[5:], [0o123456, STACK, AT + 4])
        it = self.after([0o004737, 0o2000], memory={0o2000: 0o000207})
        self.assertEqual((it.registers[6:], it.bus.words[(STACK - 2) // 2]), ([STACK - 2, 0o2000], AT + 4))
        it.step()
        self.assertEqual(it.registers[6:], [STACK, AT + 4])

    def test_mark(self):
        """MARK 2, which lies on the stack below two words and the R5 before: it returns by R5, without them."""
        it = processor_with([], [0, 0, 0, 0, 0, 0o2000], memory={STACK: 0o006402, STACK + 6: 0o123456})
        it.registers[6:] = [STACK, STACK]
        it.step()
        self.assertEqual(it.registers[5:], [0o123456, STACK + 0o10, 0o2000])

    def test_the_status(self):
        """MTPS sets all but the trace bit, MFPS reads all; a register is filled with the sign."""
        self.assertEqual(self.after([0o106400], [0o377], 0).status, 0o357)
        self.assertEqual(self.after([0o106427, 0o340], (), 0o17).status, 0o340)
        self.assertEqual(self.after([0o106701], (), 0o205).registers[1], 0o177605)
        self.assertEqual(self.after([0o106737, 0o2000], (), 0o205, memory={0o2000: 0o123456}).bus.words[0o2000 // 2], 0o123605)

    def test_a_reset(self):
        it = processor_with([0o000005], [1], 0o217)
        it.bus.write(0o177560, 0o100, 2)
        it.bus.line.arrive(0o101)
        it.step()
        self.assertEqual((it.bus.read(0o177560, 2), it.registers[0], it.registers[pdp11.PC], it.status), (0, 1, AT + 2, 0o217))

    def test_halt(self):
        it = processor_with([0])
        self.assertRaises(pdp11.Halt, it.step)
        self.assertEqual(it.registers[pdp11.PC], AT + 2)


class Traps(unittest.TestCase):
    """Traps, interrupts, and the way back."""

    def test_each_trap(self):
        for code, vector, reason in TRAPS:
            with self.subTest(reason):
                it = processor_with(code, status=0o205, memory={vector: 0o3000, vector + 2: 0o342, STACK - 2: 0o177777, STACK - 4: 0o177777})
                it.step()
                stack = it.bus.words[(STACK - 4) // 2:STACK // 2]
                self.assertEqual((it.registers[6:], it.status, stack), ([STACK - 4, 0o3000], 0o342, [AT + 2 * len(code), 0o205]))

    def test_the_way_back(self):
        for word in (0o000002, 0o000006):
            it = processor_with([word], memory={STACK: 0o2000, STACK + 2: 0o353})
            it.step()
            self.assertEqual((it.registers[6:], it.status), ([STACK + 4, 0o2000], 0o353))

    def test_a_stack_that_is_not_there(self):
        """There is nowhere to keep where a trap came from: an LSI-11 halts."""
        it = processor_with([0o104400])
        it.registers[6] = 0o120000
        self.assertRaises(pdp11.Halt, it.step)

    def test_odd_addresses(self):
        """An LSI-11 takes the word around it; where the processor traps at one, a byte may still lie there."""
        memory = {0o2000: 0o123456, 0o004: 0o3000}
        for code in ((0o013700, 0o2001), (0o010037, 0o2001), (0o005037, 0o2001)):
            it = processor_with(code, memory=memory)
            it.step()
            self.assertEqual(it.registers[pdp11.PC], AT + 4)
            it = processor_with(code, memory=memory, odd_addresses_trap=True)
            it.step()
            self.assertEqual((it.registers[pdp11.PC], it.bus.words[0o2000 // 2]), (0o3000, 0o123456))
        it = processor_with([0o113700, 0o2001], memory=memory, odd_addresses_trap=True)
        it.step()
        self.assertEqual(it.registers[0], 0o177647)

    def test_the_trace_bit(self):
        """It traps behind each instruction; behind RTI at once, and behind RTT after one more."""
        memory = {0o014: 0o3000, STACK: 0o2000, STACK + 2: 0o020, 0o2000: 0o240}
        it = processor_with([0o240], status=0o020, memory=memory)
        it.step()
        self.assertEqual((it.registers[pdp11.PC], it.bus.words[(STACK - 4) // 2:STACK // 2]), (0o3000, [AT + 2, 0o020]))
        for word, steps, came_from in ((0o000002, 1, 0o2000), (0o000006, 2, 0o2002)):
            it = processor_with([word], memory=memory)
            for _ in range(steps):
                self.assertNotEqual(it.registers[pdp11.PC], 0o3000)
                it.step()
            self.assertEqual((it.registers[pdp11.PC], it.bus.words[STACK // 2]), (0o3000, came_from))


class SerialLine(unittest.TestCase):
    """The registers of the console's serial line."""

    def setUp(self):
        self.line = pdp11.SerialLine()
        self.bus = pdp11.Bus([0] * 4, self.line, odd_addresses_trap=False)

    def statuses(self):
        return self.bus.read(0o177560, 2), self.bus.read(0o177564, 2)

    def test_a_character_comes_and_is_fetched(self):
        self.assertEqual(self.statuses(), (0, 0o200))
        self.line.arrive(0o101)
        self.assertEqual(self.statuses(), (0o200, 0o200))
        self.assertEqual((self.bus.read(0o177562, 1), *self.statuses()), (0o101, 0, 0o200))

    def test_one_that_comes_before_the_last_was_fetched_takes_its_place(self):
        for character in (0o101, 0o102, 0o103):
            self.line.arrive(character)
        self.assertEqual((self.bus.read(0o177562, 2), self.line.overrun), (0o103, 2))

    def test_a_character_is_given_and_leaves(self):
        self.bus.write(0o177566, 0o052501, 2)
        self.assertEqual((*self.statuses(), self.line.leaving), (0, 0, 0o101))
        self.assertEqual((self.line.leave(), *self.statuses()), (0o101, 0, 0o200))

    def test_a_status_is_written(self):
        """Only the permission to interrupt can be; a byte is read and written as well as a word."""
        for address in (0o177560, 0o177564):
            self.bus.write(address, 0o377, 1)
        self.assertEqual(self.statuses(), (0o100, 0o300))
        self.bus.write(0o177565, 0, 1)
        self.bus.write(0o177562, 0, 2)
        self.assertEqual((*self.statuses(), self.bus.read(0o177565, 1)), (0o100, 0o300, 0))

    def test_a_reset(self):
        """Nothing is received and nothing may interrupt; what is leaving, leaves."""
        for address in (0o177560, 0o177564):
            self.bus.write(address, 0o100, 2)
        self.line.arrive(0o101)
        self.bus.write(0o177566, 0o102, 1)
        self.line.reset()
        self.assertEqual((*self.statuses(), self.line.leave(), *self.statuses()), (0, 0, 0o102, 0, 0o200))

    def test_interrupts(self):
        """One for each character that comes, and one for each that has left; the receiver's goes before, and none comes at priority 4."""
        it = processor_with([0o240, 0o240], status=0o200, memory={0o060: 0o3000, 0o062: 0o200, 0o064: 0o3100, 0o3000: 0o002, 0o3100: 0o002})
        it.bus.write(0o177560, 0o100, 2)
        it.bus.write(0o177564, 0o100, 2)
        it.bus.line.arrive(0o101)
        it.step()
        self.assertEqual(it.registers[pdp11.PC], AT + 2)
        it.status = 0
        seen = []
        for _ in range(5):
            it.step()
            seen.append(it.registers[pdp11.PC])
        self.assertEqual(seen, [0o3000, AT + 2, 0o3100, AT + 2, AT + 4])

    def test_wait(self):
        """WAIT goes on behind an interrupt."""
        it = processor_with([0o001], memory={0o060: 0o3000, 0o3000: 0o002})
        it.bus.write(0o177560, 0o100, 2)
        for _ in range(3):
            it.step()
            self.assertEqual((it.registers[pdp11.PC], it.is_waiting), (AT + 2, True))
        it.bus.line.arrive(0o101)
        it.step()
        self.assertEqual((it.registers[pdp11.PC], it.is_waiting), (0o3000, False))


# Programs that only wait, by what they wait in.
WAITS = (
    ((0o000777,), "BR ."),
    ((0o105737, 0o177560, 0o100375), "until a character has come"),
    ((0o105737, 0o177560, 0o100403, 0o105737, 0o177560, 0o100372), "in two ways"),
    ((0o004737, 0o1010, 0o000775, 0, 0o105737, 0o177560, 0o000207), "in a subroutine"),
    ((0o012700, 0o000100, 0o077001, 0o000774), "in a loop that counts"),
    ((0o000001, 0o000776), "WAIT"),
)


class Computer(unittest.TestCase):
    """A computer whose time passes."""

    def computer_with(self, code, **named):
        words = [0] * 4096
        words[AT // 2:AT // 2 + len(code)] = code
        computer = pdp11.Computer(words, **named)
        computer.processor.registers[pdp11.SP] = STACK
        computer.start(AT)
        return computer

    def test_a_program_that_only_waits_is_not_executed(self):
        for code, reason in WAITS:
            with self.subTest(reason):
                it = self.computer_with(code)
                it.run(2000)
                self.assertFalse(it.is_busy)
                it.processor.step = lambda: self.fail("an instruction is executed")
                it.run()
                self.assertEqual((it.time, it.is_busy), (2100, False))

    def test_one_that_was_not_started(self):
        it = pdp11.Computer([0o000777])
        self.assertEqual((it.is_busy, it.run(), it.time), (False, b"", 0))

    def test_it_is_an_lsi_11(self):
        """It has no trap at an odd address."""
        it = self.computer_with([0o013700, AT + 1, 0])
        self.assertTrue(it.is_busy)
        it.run()
        self.assertFalse(it.is_busy)
        self.assertEqual((it.is_running, it.processor.registers[0], it.time), (False, 0o013700, 2))

    def test_a_program_that_counts_is_executed(self):
        """It goes round 65,536 times, and halts."""
        it = self.computer_with([0o005200, 0o001376, 0o000000])
        it.run(131_072)
        self.assertTrue(it.is_busy)
        it.run()
        self.assertEqual((it.is_running, it.time), (False, 131_073))

    def test_characters_leave_one_behind_the_other(self):
        """MOVB to the transmitter, twice, with a wait between; then BR . . The first leaves at once, by the first instruction's end, and
        the second when the line is free again."""
        it = self.computer_with([0o112737, 0o101, 0o177566, 0o105737, 0o177564, 0o100375, 0o112737, 0o102, 0o177566, 0o000777])
        self.assertEqual([it.run(1), it.run(99), it.is_busy, it.run(1), it.run(10), it.is_busy], [b"A", b"", True, b"B", b"", False])

    def test_one_that_is_written_too_early(self):
        """Three at once: the first is on the line, and the last takes the place of the second."""
        it = self.computer_with([0o112737, 0o101, 0o177566, 0o112737, 0o102, 0o177566, 0o112737, 0o103, 0o177566, 0o000777])
        self.assertEqual(it.run(200), b"AC")

    def test_what_is_leaving_at_a_halt_has_left(self):
        it = self.computer_with([0o112737, 0o101, 0o177566, 0])
        self.assertEqual((it.run(), it.is_running), (b"A", False))

    def test_a_pace(self):
        """A loop of four instructions echoes what comes: TSTB, BPL, MOVB, BR. Of a character every four none is lost. Of one every three
        some are: B has come at 3 and is seen at 5, but C takes its place at 6, before the MOVB, which is the seventh instruction; then
        the TSTB at 9 is just too early for D, which is seen at 11, and E takes its place at 12; so does G with F."""
        for pace, wanted in ((4, b"ABCDEFGH"), (3, b"ACEGH")):
            it = self.computer_with([0o105737, 0o177560, 0o100375, 0o113737, 0o177562, 0o177566, 0o000771], character_time=3)
            echoed = b""
            for character in b"ABCDEFGH":
                it.arrive(character)
                echoed += it.run(pace)
            self.assertEqual((echoed + it.run(20), it.line.overrun), (wanted, 8 - len(wanted)))


class BesideSimh(unittest.TestCase):
    """Instructions by chance, each executed by SIMH's PDP-11 too, and whole programs."""

    def setUp(self):
        simh.ask_for(self)

    def told(self, case):
        """What SIMH is told of a case."""
        yield from (f"deposit {name} {value:o}" for name, value in zip(simh.REGISTERS, case.before.registers))
        yield f"deposit PSW {case.before.status:o}"
        yield from (f"deposit {address:o} {word:o}" for address, word in case.words.items())
        window = instruction_cases.WINDOW
        yield from ("echo CASE", f"step {case.steps}", "examine R0-R5,SP,PC,PSW", f"examine -o {window[0]:o}-{window[-1]:o}")

    def state(self, said):
        registers, words = simh.registers_in(said), simh.words_in(said)
        window = tuple(words[address] for address in instruction_cases.WINDOW)
        return instruction_cases.State(tuple(registers[name] for name in simh.REGISTERS), registers["PSW"], window), "\nHALT instruction" in said

    def compare(self, maker, made, setup):
        commands = [*setup, "set cpu 16k", *(line for case in made for line in self.told(case))]
        said = simh.said_to([*commands, "echo CASE", f"examine -o 0-{instruction_cases.MISSING - 2:o}"])
        _, *answers, memory = re.split(r"^CASE\n", said, flags=re.MULTILINE)
        self.assertEqual(len(answers), len(made))
        for case, answer in zip(made, answers):
            self.assertEqual((case.after, case.has_halted), self.state(answer), case)
        held = simh.words_in(memory)
        self.assertEqual({2 * place: word for place, word in enumerate(maker.memory)}, held)

    def test_instructions_of_an_lsi_11(self):
        maker = instruction_cases.Maker(11)
        made = maker.cases(60 * len(instruction_cases.KINDS), instruction_cases.KINDS)
        # Borders are among them: a trap, the trace bit, a halt, and each code and its absence behind an instruction.
        self.assertEqual({case.steps for case in made}, {1, 2})
        self.assertEqual(collections.Counter(case.name for case in made if case.has_halted), {"HALT": 60})
        self.compare(maker, made, [])

    def program_in_simh(self, words, sent, count):
        """What SIMH shows when a program at 001000 hears this, and what its registers are at the halt."""
        it = simh.Simh(20)
        self.addCleanup(it.close)
        there = {**simh.NO_CLOCK, **words}
        it.do(*(f"deposit {name} 0" for name in ("PSW", *simh.REGISTERS)), *(f"deposit {address:o} {word:o}" for address, word in there.items()))
        done = it.begin(f"go {AT:o}")
        it.send(sent)
        shown = it.hear(count)
        it.wait(done)
        return shown, simh.registers_in(it.do("examine R0-R5,SP,PC,PSW"))

    def shown_by(self, computer, sent):
        """What a computer shows that hears this."""
        computer.start(AT)
        heard = computer.run()
        for character in sent:
            computer.arrive(character)
            heard += computer.run()
        while computer.is_busy:
            heard += computer.run()
        return heard.decode()

    def test_whole_programs(self):
        """One that is interrupted, and one that waits until its characters have left."""
        for words, sent, shown in ((placed(ECHO), b"AB12/GZ", "AB12/GZ"), (words_of_hello(), b"", HELLO_TEXT)):
            it = pdp11.Computer([0] * 4096)
            for address, word in words.items():
                it.bus.words[address // 2] = word
            self.assertEqual(self.shown_by(it, sent), shown)
            registers = dict(zip(simh.REGISTERS, it.processor.registers), PSW=it.processor.status)
            self.assertEqual(self.program_in_simh(words, sent, len(shown)), (shown, registers))

    def test_a_model_that_traps_at_odd_addresses(self):
        """SIMH's 11/34; it has a limit to its stack, which an LSI-11 hasn't."""
        maker = instruction_cases.Maker(34, odd_addresses_trap=True, lowest_stack=0o1000)
        self.compare(maker, maker.cases(1500, instruction_cases.WITH_OPERANDS), ["set cpu 11/34"])


if __name__ == "__main__":
    unittest.main()
