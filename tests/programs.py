"""Small programs for the simulated machine, at 001000."""
import re

from outside import HELLO, bytes_of

# A character that comes interrupts a WAIT, and is printed; behind Z it halts.
ECHO = (
    0o012706, 0o001000,            # MOV #1000,SP
    0o012737, 0o001040, 0o000060,  # MOV #1040,@#60
    0o012737, 0o000100, 0o177560,  # MOV #100,@#177560
    0o000001,                      # WAIT
    0o000776,                      # BR .-2
    0, 0, 0, 0, 0, 0,
    0o113700, 0o177562,            # MOVB @#177562,R0, at 001040
    0o110037, 0o177566,            # MOVB R0,@#177566
    0o120027, 0o000132,            # CMPB R0,#'Z
    0o001401,                      # BEQ .+4
    0o000002,                      # RTI
    0o000000,                      # HALT
)

# It prints A on and on; it waits for a character, and halts; it counts on and on.
ENDLESS = (0o105737, 0o177564, 0o100375, 0o112737, 0o000101, 0o177566, 0o000771)
WAITING = (0o105737, 0o177560, 0o100375, 0o000000)
COMPUTING = (0o005200, 0o000776)

# It takes each character and prints none; at Z it halts.
SILENT = (
    0o105737, 0o177560,            # TSTB @#177560
    0o100375,                      # BPL .-4
    0o113700, 0o177562,            # MOVB @#177562,R0
    0o120027, 0o000132,            # CMPB R0,#'Z
    0o001370,                      # BNE .-16
    0o000000,                      # HALT
)

HELLO_TEXT = "HELLO FROM THE LSI-11\r\n"


def words_of_hello():
    """The words of hello.lda by their addresses, as its page lists them."""
    rows = re.findall(r"^([0-7]{6}) [0-7]{6} ([0-7]{6})  ", bytes_of(HELLO.replace(".lda", ".md")).decode(), re.MULTILINE)
    return {int(address, 8): int(word, 8) for address, word in rows}


def placed(program, place=0o1000):
    """The words of a program by their addresses."""
    return {place + 2 * number: word for number, word in enumerate(program)}
