"""The stub of `ldaodt load --fast`, as a listing: its words are here by hand, so that a test may compare the program's with them.

A *stretch* is bytes of memory one behind another, named by the first address and the one behind the last. A nibble n comes as the
character 140+n, the high one of a byte first, and is answered as 157-n, its complement, once the byte is stored. The stub asks the
receiver and the transmitter in turn: R0 is where the next byte goes, R2 what is to be answered next, and memory between is its queue.
At any other character it answers what it owes, and halts. The host exchanges a stretch in *chunks*, which end at an address that is a
multiple of 64, or where the stretch ends."""

# The words of each instruction, then the instruction. TABLE is the address behind the code, STOP that of the halt, which is a 0: the
# only words that depend on the place.
LISTING = """
    106427 000340   start:  mtps #340               ; no interrupt gets between two characters
    012705 TABLE            mov #table,r5
    012706 000000           mov #0,sp               ; which nibble is answered next: 0 before the high one
    012501          next:   mov (r5)+,r1            ; the address behind a stretch; 0 is the table's end
    001466                  beq stop
    012500                  mov (r5)+,r0            ; where it begins
    010002                  mov r0,r2
    012703 000200   byte:   mov #200,r3             ; two nibbles shift this bit into the sign
    020001          loop:   cmp r0,r1               ; is all of the stretch there?
    001427                  beq idle
    105737 177560           tstb @#177560           ; has a character come?
    100024                  bpl idle
    113704 177562           movb @#177562,r4        ; it has
    042704 177600           bic #177600,r4          ; without a parity bit
    162704 000140           sub #140,r4
    020427 000017           cmp r4,#17              ; is it a nibble?
    101010                  bhi bad
    006303                  asl r3
    006303                  asl r3
    006303                  asl r3
    006303                  asl r3
    060403                  add r4,r3
    100354                  bpl loop                ; the low nibble is still to come
    110320                  movb r3,(r0)+           ; the byte
    000750                  br byte
    010001          bad:    mov r0,r1               ; the stretch ends here,
    012705 STOP             mov #stop,r5            ; and the table with it
    020200          idle:   cmp r2,r0               ; is an answer owed?
    001424                  beq empty
    105737 177564           tstb @#177564           ; may a character be sent?
    100342                  bpl loop
    005106                  com sp
    100006                  bpl low
    111204                  movb (r2),r4            ; the byte as memory holds it
    006204                  asr r4
    006204                  asr r4
    006204                  asr r4
    006204                  asr r4
    000401                  br out
    112204          low:    movb (r2)+,r4
    005104          out:    com r4
    042704 177760           bic #177760,r4
    062704 000140           add #140,r4
    110437 177566           movb r4,@#177566
    000721                  br loop
    020001          empty:  cmp r0,r1               ; all is answered: is all of the stretch there?
    001317                  bne loop
    000710                  br next
    000000          stop:   halt                    ; ODT
"""

# Each line's words as they stand there, its label and its instruction.
LINES = tuple((tuple(line[4:17].split()), line[20:28].strip(" :"), line[28:52].strip()) for line in LISTING.strip("\n").split("\n"))
CODE = tuple(word for words, _, _ in LINES for word in words)

# How far behind the start the HALT lies, in bytes, and where ODT says that the machine has halted.
STOP, HALTED = 2 * len(CODE) - 2, 2 * len(CODE)



def behind(instruction):
    """How far behind the start the word behind an instruction lies, in bytes."""
    place = [it for _, _, it in LINES].index(instruction)
    return 2 * sum(len(words) for words, _, _ in LINES[:place + 1])


# The most bytes of a chunk, and how many characters the host sends at most beyond the answers that it heard.
CHUNK, AHEAD = 64, 32


def stub_words(place, stretches):
    """The stub's words for a place, an even address, and the stretches that it fills, which reach none of its words."""
    addresses = {"TABLE": place + HALTED, "STOP": place + STOP}
    code = [addresses[word] if word in addresses else int(word, 8) for word in CODE]
    return [*code, *(word for first, end in stretches for word in (end, first)), 0]


def chunks(stretches):
    """The chunks of the stretches, in their order."""
    return [(max(first, at), min(end, at + CHUNK))
            for first, end in stretches for at in range(first - first % CHUNK, end, CHUNK)]


def typed(data):
    """The characters in which bytes come."""
    return "".join(chr(0o140 + nibble) for byte in data for nibble in (byte >> 4, byte & 15))


def answered(data):
    """The characters in which they are answered."""
    return "".join(chr(0o157 - nibble) for byte in data for nibble in (byte >> 4, byte & 15))
