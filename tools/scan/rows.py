"""What the tables say of their slaves, worked out by hand from each table and from ETG.1000: nothing here came from a program.

The words of an SII: a category is its type, its length and its words. Strings: a byte with their number, a byte with the letters of the
only one, and these, up to a whole word. General has 16 words, the FMMUs 2, the sync managers 16, an object of n entries 4 + 4n. They
begin at word 0x40, and the mark 0xFFFF ends them. A master reads two words at a time, so the image has room for the word behind the
mark; its size is a whole number of kibibits, 64 words each.
"""
import collections

# where the mailboxes lie: the one that the master writes, its bytes, the one that the master reads, its bytes
Mailbox = collections.namedtuple("Mailbox", "receive_start receive_size send_start send_size")

# A slave. `identity`: vendor, product, revision, serial number. `outputs`, `inputs`: all objects of its type, each an index and its entries,
# which are index, subindex and bits. `categories`: types and lengths in words, in order. `end`: the word address of the mark behind them.
# `size`: kibibits of the SII less 1.
Row = collections.namedtuple(
    "Row", "name identity mailbox out_start in_start outputs inputs output_bytes input_bytes lrw categories end size")

# a machine: its table, below the top of the repository, and its slaves
Machine = collections.namedtuple("Machine", "table slaves")

# ---- examples/drive.toml

# 64 and 64 bits of outputs, 96 and 32 bits of inputs. 2 + 5 bytes of the string are 4 words. Of inputs there are two objects with six
# entries, of outputs two with eight. 0x40 + 6 + 18 + 4 + 18 + 34 + 42 = 0xBA, and 0xBB words are three kibibits.
SERVO = Row(
    name="servo", identity=(0x5A5, 0x0402, 3, 4711), mailbox=Mailbox(0x1000, 256, 0x1200, 256), out_start=0x1400, in_start=0x1600,
    outputs=[
        (0x1600, [(0x6040, 0, 16), (0x6060, 0, 8), (0, 0, 8), (0x607A, 0, 32)]),
        (0x1601, [(0x6040, 0, 16), (0x6060, 0, 8), (0, 0, 8), (0x60FF, 0, 32)]),
    ],
    inputs=[
        (0x1A00, [(0x6041, 0, 16), (0x6061, 0, 8), (0, 0, 8), (0x6064, 0, 32), (0x606C, 0, 32)]),
        (0x1A01, [(0x60FD, 0, 32)]),
    ],
    output_bytes=16, input_bytes=16, lrw=True, categories=[(10, 4), (30, 16), (40, 2), (41, 16), (50, 32), (51, 40)], end=0xBA, size=2)

# ---- examples/line.toml

# 2 + 4 bytes of the string are 3 words. 0x40 + 5 + 18 + 4 + 18 + 10 = 0x77.
DO16 = Row(
    name="do16", identity=(0x5A5, 0x0216, 1, 0), mailbox=None, out_start=0x1000, in_start=0,
    outputs=[(0x1600, [(0x7000, 1, 16)])], inputs=[],
    output_bytes=2, input_bytes=0, lrw=True, categories=[(10, 3), (30, 16), (40, 2), (41, 16), (51, 8)], end=0x77, size=1)

DI16 = Row(
    name="di16", identity=(0x5A5, 0x0116, 1, 0), mailbox=None, out_start=0, in_start=0x1000,
    outputs=[], inputs=[(0x1A00, [(0x6000, 1, 16)])],
    output_bytes=0, input_bytes=2, lrw=True, categories=[(10, 3), (30, 16), (40, 2), (41, 16), (50, 8)], end=0x77, size=1)

# ---- examples/small_machine.toml

# 2 + 7 bytes of the string are 5 words; an object of five entries has 24. 0x40 + 7 + 18 + 4 + 18 + 10 + 26 = 0x93, and 0x94 words are
# three kibibits.
PANEL = Row(
    name="coupler", identity=(0x5A5, 0x0011, 2, 0), mailbox=None, out_start=0x1100, in_start=0x1180,
    outputs=[(0x1600, [(0x7000, 1, 1), (0x7000, 2, 1), (0x7000, 3, 1), (0x7000, 4, 1), (0, 0, 4)])],
    inputs=[(0x1A00, [(0x6000, 1, 8)])],
    output_bytes=1, input_bytes=1, lrw=True, categories=[(10, 5), (30, 16), (40, 2), (41, 16), (50, 8), (51, 24)], end=0x93, size=2)

# Two objects of three entries, two of one. 0x40 + 7 + 18 + 4 + 18 + 34 + 18 = 0xA3.
ANALOG2 = Row(
    name="analog2", identity=(0x5A5, 0x0302, 1, 1042), mailbox=Mailbox(0x1000, 128, 0x1080, 128), out_start=0x1100, in_start=0x1400,
    outputs=[(0x1600, [(0x7010, 17, 16)]), (0x1601, [(0x7020, 17, 16)])],
    inputs=[(0x1A00, [(0x6010, 1, 8), (0, 0, 8), (0x6010, 17, 16)]), (0x1A01, [(0x6020, 1, 8), (0, 0, 8), (0x6020, 17, 16)])],
    output_bytes=4, input_bytes=8, lrw=False, categories=[(10, 5), (30, 16), (40, 2), (41, 16), (50, 32), (51, 16)], end=0xA3, size=2)

# ---- examples/terminals.toml

# No process data. 2 + 7 bytes of the string are 5 words. 0x40 + 7 + 18 + 4 + 18 = 0x6F.
COUPLER = Row(
    name="coupler", identity=(0x5A5, 0x0100, 17, 0), mailbox=None, out_start=0, in_start=0, outputs=[], inputs=[],
    output_bytes=0, input_bytes=0, lrw=True, categories=[(10, 5), (30, 16), (40, 2), (41, 16)], end=0x6F, size=1)

# 2 + 3 bytes of the string are 3 words; eight objects of an entry have 64. 0x40 + 5 + 18 + 4 + 18 + 66 = 0xAF, and 0xB0 words are three
# kibibits.
DI8 = Row(
    name="di8", identity=(0x5A5, 0x0108, 16, 0), mailbox=None, out_start=0, in_start=0x1000, outputs=[],
    inputs=[
        (0x1A00, [(0x6000, 1, 1)]), (0x1A01, [(0x6010, 1, 1)]), (0x1A02, [(0x6020, 1, 1)]), (0x1A03, [(0x6030, 1, 1)]),
        (0x1A04, [(0x6040, 1, 1)]), (0x1A05, [(0x6050, 1, 1)]), (0x1A06, [(0x6060, 1, 1)]), (0x1A07, [(0x6070, 1, 1)]),
    ],
    output_bytes=0, input_bytes=1, lrw=True, categories=[(10, 3), (30, 16), (40, 2), (41, 16), (50, 64)], end=0xAF, size=2)

DO8 = Row(
    name="do8", identity=(0x5A5, 0x0208, 16, 0), mailbox=None, out_start=0x1000, in_start=0, inputs=[],
    outputs=[
        (0x1600, [(0x7000, 1, 1)]), (0x1601, [(0x7010, 1, 1)]), (0x1602, [(0x7020, 1, 1)]), (0x1603, [(0x7030, 1, 1)]),
        (0x1604, [(0x7040, 1, 1)]), (0x1605, [(0x7050, 1, 1)]), (0x1606, [(0x7060, 1, 1)]), (0x1607, [(0x7070, 1, 1)]),
    ],
    output_bytes=1, input_bytes=0, lrw=True, categories=[(10, 3), (30, 16), (40, 2), (41, 16), (51, 64)], end=0xAF, size=2)

# ---- examples/press/press.toml

# 2 + 3 bytes of the string are 3 words; an object of three entries has 16. 0x40 + 5 + 18 + 4 + 18 + 18 = 0x7F, and 0x81 words are three
# kibibits.
DI2 = Row(
    name="di2", identity=(0x5A5, 0x0102, 1, 0), mailbox=None, out_start=0, in_start=0x1000,
    outputs=[], inputs=[(0x1A00, [(0x6000, 1, 1), (0x6000, 2, 1), (0, 0, 6)])],
    output_bytes=0, input_bytes=1, lrw=True, categories=[(10, 3), (30, 16), (40, 2), (41, 16), (50, 16)], end=0x7F, size=2)

# 2 + 5 bytes of the string are 4 words. 8 bits of outputs; 24 bits of inputs are 3 bytes. The object of four entries has 20 words, that of
# two 12. 0x40 + 6 + 18 + 4 + 18 + 22 + 14 = 0x92, and 0x94 words are three kibibits.
PRESS = Row(
    name="press", identity=(0x5A5, 0x0303, 1, 0), mailbox=None, out_start=0x1000, in_start=0x1100,
    outputs=[(0x1600, [(0x7000, 1, 1), (0, 0, 7)])],
    inputs=[(0x1A00, [(0x6000, 1, 1), (0x6000, 2, 1), (0, 0, 6), (0x6010, 1, 16)])],
    output_bytes=1, input_bytes=3, lrw=True, categories=[(10, 4), (30, 16), (40, 2), (41, 16), (50, 20), (51, 12)], end=0x92, size=2)

# ---- tools/scan/data/axis.toml: an axis with mailboxes and both directions, lamps that are written alone and have no mailbox, and an eye
# that is read alone and takes no part in LRW. The axis assigns one of its two objects of outputs alone.

# 24 and 32 bits of outputs are 7 bytes; 21 and 12 bits of inputs are 5. The string has 2 + 32 bytes, so 17 words; an object and an entry
# have 4 words each. 0x40 + 19 + 18 + 4 + 18 + 26 + 22 = 0xAB, and 0xAC words are three kibibits.
AXIS = Row(
    name="axis_with_two_output_objects_x32", identity=(0x12345678, 0x9ABCDEF0, 0x00020001, 0xDEADBEEF),
    mailbox=Mailbox(0x1000, 128, 0x1080, 96), out_start=0x1100, in_start=0x1200,
    outputs=[(0x1600, [(0x7000, 1, 16), (0x7000, 2, 8)]), (0x1601, [(0x7010, 1, 32)])],
    inputs=[(0x1A00, [(0x6000, 1, 16), (0, 0, 4), (0x6000, 2, 1)]), (0x1A02, [(0x6010, 17, 12)])],
    output_bytes=7, input_bytes=5, lrw=True, categories=[(10, 17), (30, 16), (40, 2), (41, 16), (50, 24), (51, 20)], end=0xAB, size=2)

# 2 + 5 bytes of the string are 4 words. 0x40 + 6 + 18 + 4 + 18 + 22 = 0x84.
LAMPS = Row(
    name="lamps", identity=(0x5A5, 2, 3, 7), mailbox=None, out_start=0x1000, in_start=0,
    outputs=[(0x1610, [(0x7000, 1, 1), (0x7000, 2, 1), (0, 0, 6), (0x7001, 0, 8)])], inputs=[],
    output_bytes=2, input_bytes=0, lrw=True, categories=[(10, 4), (30, 16), (40, 2), (41, 16), (51, 20)], end=0x84, size=2)

# 2 + 3 bytes of the string are 3 words. 0x40 + 5 + 18 + 4 + 18 + 10 = 0x77.
EYE = Row(
    name="eye", identity=(0x5A5, 4, 5, 0), mailbox=Mailbox(0x1000, 32, 0x1020, 32), out_start=0, in_start=0x1100,
    outputs=[], inputs=[(0x1A00, [(0x6000, 1, 32)])],
    output_bytes=0, input_bytes=4, lrw=False, categories=[(10, 3), (30, 16), (40, 2), (41, 16), (50, 8)], end=0x77, size=1)

# The words of the lamps' categories as they stand in the SII, with the end mark.
LAMPS_WORDS = [
    # strings: one of five letters
    10, 4, 0x0501, 0x616C, 0x706D, 0x0073,
    # general: no CoE, LRW, ports 0 and 1
    30, 16, 0, 0x0101, 0, 0, 0, 0, 0, 0, 0x0011, 0, 0, 0, 0, 0, 0, 0,
    # FMMUs: one for outputs
    40, 2, 0x0001, 0,
    # sync managers: no mailboxes, two bytes of outputs, no inputs
    41, 16, 0, 0, 0, 0, 0, 0, 0, 0, 0x1000, 2, 0x0024, 0x0301, 0, 0, 0x0020, 0x0400,
    # outputs: an object of four entries on manager 2
    51, 20, 0x1610, 0x0204, 0, 0, 0x7000, 0x0001, 0x0100, 0, 0x7000, 0x0002, 0x0100, 0, 0, 0, 0x0600, 0, 0x7001, 0x0000, 0x0800, 0,
    0xFFFF,
]

# ---- tools/scan/data/kibibit.toml: a slave whose mark is the last word of a kibibit

# One object of three entries, and a name of three letters. 0x40 + 5 + 18 + 4 + 18 + 18 = 0x7F. The word behind the mark lies in a third
# kibibit.
DI3 = Row(
    name="di3", identity=(0x5A5, 6, 7, 0), mailbox=None, out_start=0, in_start=0x1000,
    outputs=[], inputs=[(0x1A00, [(0x6000, 1, 1), (0x6000, 2, 1), (0x6000, 3, 1)])],
    output_bytes=0, input_bytes=1, lrw=True, categories=[(10, 3), (30, 16), (40, 2), (41, 16), (50, 16)], end=0x7F, size=2)

# valves and sensors, eight times, in the line; 32 times, as many slaves as there may be
MACHINES = {
    "drive": Machine("examples/drive.toml", [SERVO]),
    "line": Machine("examples/line.toml", [DO16, DI16] * 8),
    "small_machine": Machine("examples/small_machine.toml", [PANEL, ANALOG2]),
    # found by `ecat scan` alone
    "three_slaves": Machine("examples/three_slaves.toml", []),
    "three_slaves_inline": Machine("examples/three_slaves_inline.toml", []),
    "press": Machine("examples/press/press.toml", [DI2, PRESS]),
    "terminals": Machine("examples/terminals.toml", [COUPLER, DI8, DO8, DI8, DO8]),
    "axis": Machine("tools/scan/data/axis.toml", [AXIS, LAMPS, EYE]),
    "kibibit": Machine("tools/scan/data/kibibit.toml", [DI3]),
    "many": Machine("tools/scan/data/many.toml", [DO16, DI16] * 32),
    "nobody": Machine("tools/scan/data/nobody.toml", []),
}
