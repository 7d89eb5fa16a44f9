"""What tools/esi/esi2toml says of changed samples, worked out by hand from the schema (ETG.2000) and from the keys of a type.

A row is a sample, changes of its text, and what comes of them. A change is an old and a new text; the old one stands there once.
"""

PRODUCT, REVISION, TITLE = 'ProductCode="#x2"', 'RevisionNo="#x3"', '<Name LcId="1033">A box</Name>\n'
TYPE = '<Type ProductCode="#x2" RevisionNo="#x3">box</Type>\n'
BOX_OUT = '<Sm DefaultSize="128" StartAddress="#x1000" ControlByte="#x26">MBoxOut</Sm>\n'
BOX_IN = '<Sm DefaultSize="128" StartAddress="#x1080" ControlByte="#x22">MBoxIn</Sm>\n'
OUT = '<Sm DefaultSize="2" StartAddress="#x1100" ControlByte="#x24">'
IN = '<Sm DefaultSize="3" StartAddress="#x1180" ControlByte="#x20">'
COE = '<CoE PdoAssign="1">'
SET = "<Index>#x7000</Index><SubIndex>1</SubIndex><BitLen>16</BitLen>"
HEAT = "<Index>#x6001</Index><SubIndex>1</SubIndex><BitLen>8</BitLen>"
INIT = '<InitCmd><Transition>PS</Transition><Index>#x8000</Index><SubIndex>1</SubIndex><Data>0A</Data></InitCmd>\n'
END = "</Mailbox>\n"
PINS_OUT, PINS_BITS = 'StartAddress="#x0F00"', "<BitLen>1</BitLen><DataType>BOOL</DataType>"
HEAT_LINE = "    # Heat (not assigned as delivered): Heat SINT\n    { index = 0x1A01, entries = [[0x6001, 1, 8]] },\n"
SLAVE = '# as delivered:\n# [[slave]]\n# name = "box"\n# type = "box"\n# out = [0x1600]\n# in = [0x1A00]\n'
DATA_TYPES = [("BOOL", 1), ("BIT", 1), ("BIT1", 1), ("BIT2", 2), ("BIT3", 3), ("BIT8", 8), ("BIT16", 16), ("BITARR8", 8), ("BITARR16", 16), ("BITARR32", 32),
              ("BYTE", 8), ("WORD", 16), ("DWORD", 32), ("LWORD", 64), ("SINT", 8), ("INT", 16), ("INT24", 24), ("DINT", 32), ("INT40", 40), ("INT48", 48),
              ("INT56", 56), ("LINT", 64), ("USINT", 8), ("UINT", 16), ("UINT24", 24), ("UDINT", 32), ("UINT40", 40), ("UINT48", 48), ("UINT56", 56),
              ("ULINT", 64), ("REAL", 32), ("LREAL", 64), ("STRING(1)", 8), ("STRING(8)", 64), ("ARRAY [0..3] OF BYTE", 32), ("DT6000", 7)]


def command(index="#x8000", sub="<SubIndex>1</SubIndex>", data="<Data>0A</Data>", ways=("PS",), attributes=""):
    return f"<InitCmd{attributes}>{''.join(f'<Transition>{way}</Transition>' for way in ways)}<Index>{index}</Index>{sub}{data}</InitCmd>\n"


def pdo(tag, index, attributes="", entry="", inside=""):
    return f"<{tag}{attributes}><Index>#x{index:04X}</Index>{inside}{entry}</{tag}>\n"


def entry(index, sub, bits, kind=""):
    return f"<Entry><Index>#x{index:04X}</Index><SubIndex>{sub}</SubIndex><BitLen>{bits}</BitLen>{kind}</Entry>"


# a sample, its changes, and why its device is refused
REFUSED = [
    # what a table hasn't
    ("box", [(TITLE, TITLE + '<Slots MaxSlotCount="4"><Slot><Name>a</Name></Slot></Slots>')], "it takes modules (Slots): its PDOs depend on those that are plugged"),
    ("box", [(TITLE, TITLE + "<Slots/>")], "it takes modules (Slots): its PDOs depend on those that are plugged"),
    ("box", [(BOX_OUT, BOX_OUT.replace("128", "15"))], "manager 0 is a mailbox of 15 bytes; a table's have 16 to 1024"),
    ("box", [(BOX_IN, BOX_IN.replace("128", "1025"))], "manager 1 is a mailbox of 1025 bytes; a table's have 16 to 1024"),
    ("box", [(BOX_OUT, BOX_OUT.replace(' DefaultSize="128"', ""))], "manager 0 is a mailbox of 0 bytes; a table's have 16 to 1024"),
    ("box", [(BOX_OUT, ""), (BOX_IN, BOX_IN + BOX_OUT)], "its mailboxes aren't managers 0 and 1"),
    ("box", [(BOX_IN, "<Sm/>\n")], "it has 1 of 2 managers for mailboxes"),
    ("box", [(BOX_OUT, "<Sm/>\n"), (BOX_IN, "<Sm>Unused</Sm>\n")], "it has 0 of 2 managers for mailboxes"),
    ("box", [(COE, '<FoE/><SoE/></Mailbox><Ignored PdoAssign="1">'), ("</CoE></Mailbox>", "</Ignored>")], "its mailbox is without CoE"),
    ("box", [(OUT, "<Sm/><Sm/>" + OUT)], "manager 4 is for Outputs; a table has managers 0 to 3"),
    ("box", [(IN, OUT + "Outputs</Sm>" + IN)], "managers 2 and 3 are both for Outputs"),
    ("box", [(OUT, OUT.replace("#x24", "#x26"))], "the control byte of manager 2 (Outputs) is 0x26, which is another mode"),
    ("box", [(IN, IN.replace("#x20", "#x24"))], "the control byte of manager 3 (Inputs) is 0x24, which is another mode"),
    ("box", [(BOX_IN, BOX_IN.replace("#x22", "0"))], "the control byte of manager 1 (MBoxIn) is 0x00, which is another mode"),
    ("box", [(OUT, OUT.replace("<Sm ", '<Sm OneByteMode="1" '))], "manager 2 is in one byte mode"),
    ("box", [(IN, IN.replace("<Sm ", '<Sm Virtual="1" '))], "PDO 0x1A00: there is no manager for Inputs"),
    ("box", [('Sm="2"', 'Sm="3"')], "PDO 0x1600: it is in manager 3, which isn't for Outputs"),
    ("box", [('Sm="2"', 'Sm="2" Virtual="1"')], "PDO 0x1600: it is virtual"),
    ("box", [('Sm="2"', 'Sm="2" OSFac="10"')], "PDO 0x1600: it is oversampled"),
    ("box", [("<Index>#x1600<", '<Index DependOnSlot="1">#x1600<')], "PDO 0x1600: it depends on a slot"),
    ("box", [("<Index>#x7000<", '<Index DependOnSlot="true">#x7000<')], "PDO 0x1600: it depends on a slot"),
    ("box", [("#x1600", "#x15FF")], "PDO 0x15FF: a table has its RxPdo at 0x1600 to 0x17FF"),
    ("box", [("#x1600", "#x1800")], "PDO 0x1800: a table has its RxPdo at 0x1600 to 0x17FF"),
    ("box", [("#x1A00", "#x1C00")], "PDO 0x1C00: a table has its TxPdo at 0x1A00 to 0x1BFF"),
    ("box", [(SET, SET.replace("16", "65"))], "PDO 0x1600: entry 0x7000:0x01 has 65 bits; a table's have 1 to 64"),
    ("box", [("<BitLen>4<", "<BitLen>65<")], "PDO 0x1A00: a gap has 65 bits; a table's have 1 to 64"),
    ("box", [("</RxPdo>", entry(0x7001, 1, 8) * 64 + "</RxPdo>")], "PDO 0x1600: it has 65 entries; a table's have 64"),
    ("box", [("</RxPdo>\n", "</RxPdo>\n" + "".join(pdo("RxPdo", 0x1601 + k, ' Sm="2"') for k in range(16)))], "17 PDOs are assigned in one direction; a table has 16"),
    ("box", [("</RxPdo>", "".join(entry(0x7001, 1 + k, 64) for k in range(31)) + entry(0x7002, 1, 49) + "</RxPdo>")], "2049 bits are exchanged in one direction; a plan has 2048"),
    ("box", [("</RxPdo>", entry(0x7000, 1, 8) + "</RxPdo>")], "entry 0x7000:0x01 is exchanged twice"),
    ("box", [("<TxPdo><Index>#x1A01<", '<TxPdo Sm="3"><Index>#x1A00<')], "PDO 0x1A00: it stands twice"),
    ("box", [("<TxPdo>", '<TxPdo Sm="3">'), ("<Name>Heat</Name>\n", "<Exclude>#x1A00</Exclude>")], "PDO 0x1A01 and 0x1A00 are both assigned, and exclude each other"),
    ("box", [('<TxPdo Sm="3">', '<TxPdo Sm="3" PdoOrder="2">'), ("<TxPdo>", '<TxPdo Mandatory="1" PdoOrder="1">')], "the elements TxPdo have another order by PdoOrder"),
    ("box", [(INIT, command(attributes=' CompleteAccess="1"'))], "init command 0x8000:0x01 is by complete access"),
    ("box", [(INIT, command(data="<Data>010203</Data>"))], "init command 0x8000:0x01 has 3 bytes; a table's have 1, 2 or 4"),
    ("box", [(INIT, command(data="<Data>0102030405060708</Data>"))], "init command 0x8000:0x01 has 8 bytes; a table's have 1, 2 or 4"),
    ("box", [(INIT, command(ways=("PS", "SO")))], "init command 0x8000:0x01 is for the way from SAFEOP to OP"),
    ("box", [(INIT, command(sub='<SubIndex DependOnSlot="1">1</SubIndex>'))], "init command 0x8000:0x01 depends on a slot"),
    ("box", [(INIT, INIT * 65)], "it has 65 init commands; a table has 64"),
    ("box", [(END, END + "<Eeprom><ConfigData>0501</ConfigData></Eeprom>")], "its AL status is a copy by its EEPROM, and it has a mailbox"),
    # what has no plan
    ("box", [(OUT, OUT.replace("#x1100", "#x107F"))], "its sync managers overlap at 0x107F to 0x1084"),
    ("box", [(OUT, OUT.replace("#x1100", "#x1040"))], "its sync managers overlap at 0x1040 to 0x1045"),
    ("box", [(IN, IN.replace("#x1180", "#x1105"))], "its sync managers overlap at 0x1105 to 0x110D"),
    # three bytes of inputs, three times
    ("box", [(OUT, OUT.replace("#x1100", "#x1188"))], "its sync managers overlap at 0x1180 to 0x1188"),
    ("box", [(IN, IN.replace("#x1180", "#x2FF8"))], "it uses 0x2FF8 to 0x3000; a plan has 0x1000 to 0x2FFF"),
    ("box", [(BOX_OUT, BOX_OUT.replace("#x1000", "#x0FFF"))], "it uses 0x0FFF to 0x107E; a plan has 0x1000 to 0x2FFF"),
    ("box", [(IN, IN.replace("#x1180", "#x0F00"))], "it uses 0x0F00 to 0x0F08; a plan has 0x1000 to 0x2FFF"),
    ("pins", [(PINS_OUT, 'StartAddress="#x0F04"')], "it uses 0x0F04 to 0x0F06; a plan has 0x1000 to 0x2FFF"),
    ("pins", [('DefaultSize="1" StartAddress="#x0F00"', 'StartAddress="#x0F03"'), (PINS_BITS, "<BitLen>9</BitLen>")], "it uses 0x0F03 to 0x0F04; a plan has 0x0F00 to 0x0F03"),
    ("pins", [('StartAddress="#x1000"', 'StartAddress="#x2FF0"')], "its sync managers overlap at 0x2FF0 to 0x2FF2"),
    ("pins", [(PINS_BITS, "<BitLen>9</BitLen>")], "the size of manager 0 is 1, and its PDOs have 2 bytes"),
    # what is missing or isn't as the schema has it
    ("box", [(TYPE, "")], "it has no element Type"),
    ("box", [(PRODUCT, "")], "the product code is missing"),
    ("box", [(PRODUCT, 'ProductCode="#x100000000"')], "the product code is #x100000000; it may be 0 to 4294967295"),
    ("box", [(PRODUCT, 'ProductCode="-1"')], "the product code is -1; it may be 0 to 4294967295"),
    ("box", [(PRODUCT, 'ProductCode="#xyz"')], 'the product code is "#xyz", which is no number'),
    ("box", [(PRODUCT, 'ProductCode="1e3"')], 'the product code is "1e3", which is no number'),
    ("box", [(PRODUCT, 'ProductCode="#x"')], 'the product code is "#x", which is no number'),
    ("box", [(PRODUCT, 'ProductCode="\u0663"')], 'the product code is "\u0663", which is no number'),
    ("box", [(PRODUCT, f'ProductCode="{"9" * 5000}"')], f'the product code is "{"9" * 38}..", which is no number'),
    ("box", [(REVISION, 'RevisionNo="3.1"')], 'the revision is "3.1", which is no number'),
    ("box", [(OUT, OUT.replace(' StartAddress="#x1100"', ""))], "the start of manager 2 (Outputs) is missing"),
    ("box", [(OUT, OUT.replace("#x1100", "65536"))], "the start of manager 2 (Outputs) is 65536; it may be 0 to 65535"),
    ("box", [(OUT, OUT.replace("#x24", "#x124"))], "the control byte of manager 2 (Outputs) is #x124; it may be 0 to 255"),
    ("box", [('Sm="2"', 'Sm=""')], "PDO 0x1600: its manager is missing"),
    ("box", [('Sm="2"', 'Sm="two"')], 'PDO 0x1600: its manager is "two", which is no number'),
    ("box", [("<Index>#x1A01</Index>", "")], "the index of an element TxPdo is missing"),
    ("box", [("<Index>#x7000</Index>", "")], "PDO 0x1600: the index of an entry is missing"),
    ("box", [(SET, SET.replace("<BitLen>16</BitLen>", ""))], "PDO 0x1600: the bit length of entry 0x7000:0x01 is missing"),
    ("box", [(SET, SET.replace("<SubIndex>1<", "<SubIndex>256<"))], "PDO 0x1600: the subindex of entry 0x7000 is 256; it may be 0 to 255"),
    ("box", [(SET, SET.replace("#x7000", "#x10000"))], "PDO 0x1600: the index of an entry is #x10000; it may be 0 to 65535"),
    ("box", [(COE, '<CoE PdoAssign="maybe">')], 'PdoAssign of CoE is "maybe", which is no truth value'),
    ("box", [(INIT, command(data=""))], "the data of init command 0x8000:0x01 aren't bytes in hex"),
    ("box", [(INIT, command(data="<Data>0</Data>"))], "the data of init command 0x8000:0x01 aren't bytes in hex"),
    ("box", [(INIT, command(data="<Data>#x0A</Data>"))], "the data of init command 0x8000:0x01 aren't bytes in hex"),
    ("box", [(INIT, command(ways=()))], "init command 0x8000:0x01 has no transition"),
    ("box", [(INIT, command(sub="<SubIndex>256</SubIndex>"))], "the subindex of init command 0x8000 is 256; it may be 0 to 255"),
    ("box", [(INIT, command(index=""))], "the index of an init command is missing"),
    ("pins", [("0401000000000000", "04 01 0")], "the data of its EEPROM aren't bytes in hex"),
    ("box", [(END, END + "<Dc><OpMode><AssignActivate>on</AssignActivate></OpMode></Dc>")], 'AssignActivate of a mode is "on", which is no number'),
]

# the same with --no-hardware; behind each reason stands that a table says so only with `hardware`
PLAIN_REFUSED = [
    ("box", [], "it has init commands"),
    ("box", [(INIT, ""), (COE, "<CoE>")], "its assignment is fixed"),
    ("box", [(INIT, ""), (REVISION, "")], "any revision fits"),
    ("box", [(INIT, ""), (OUT, OUT.replace("#x24", "#x64"))], "manager 2, control byte 0x64, is for Outputs"),
    ("box", [(INIT, ""), (IN, IN.replace("#x20", "#x30"))], "manager 3, control byte 0x30, is for Inputs"),
    ("pins", [], "it has no firmware"),
    ("pins", [("0401000000000000", "0400")], "manager 0, control byte 0x44, is for Outputs"),
]

# a sample, its changes, those of its table, and what is left out
SAID = [
    # other forms of the same
    ("box", [(PRODUCT, 'ProductCode="2"'), (REVISION, 'RevisionNo=" 0x00000003 "'), ("#x1A00", "#X1a00"), ("#x7000", "+28672"), ("<BitLen>4<", "<BitLen>\n0004 <!-- bits --><")], [], []),
    ("box", [(OUT, OUT.replace(' ControlByte="#x24"', ""))], [], []),
    ("box", [(OUT, OUT.replace("<Sm ", '<Sm MinSize="0" MaxSize="2" Enable="#x09" Watchdog="1" OpOnly="1" '))], [], []),
    ("box", [(COE, '<CoE SdoInfo="0" PdoAssign="TRUE" PdoConfig="1" PdoUpload="1" CompleteAccess="1" SegmentedSdo="1" EdsFile="a.eds">')], [], []),
    ("box", [("#x6001</Index><SubIndex>1<", "#x6001</Index><SubIndex>#x01<"), ("<EtherCATInfo>", '<EtherCATInfo xmlns:xsi="http://x" xsi:noNamespaceSchemaLocation="EtherCATInfo.xsd" Version="1.6">')], [], []),
    ("box", [(TITLE, TITLE + "<b/>" * 100 + "<a>" * 60 + "</a>" * 60)], [], []),
    # names
    ("box", [(">box<", ">Box-7 (24&#160;V)/\u00e4<")], [('\nname = "box"', '\nname = "Box_7_24_V"'), ('"box"\n# type = "box"', '"box_7_24_v"\n# type = "Box_7_24_V"')], []),
    ("box", [(">box<", ">Box 9<")], [('\nname = "box"', '\nname = "Box_9"'), ('"box"\n# type = "box"', '"box_9"\n# type = "Box_9"')], []),
    ("box", [(">box<", f">{'b' * 40}<")], [('\nname = "box"', f'\nname = "{"b" * 32}"'), ('"box"\n# type = "box"', f'"{"b" * 32}"\n# type = "{"b" * 32}"')], []),
    ("box", [(">box<", ">\u00e4<")], [('\nname = "box"', '\nname = "product_00000002"'), ('"box"\n# type = "box"', '"product_00000002"\n# type = "product_00000002"')], []),
    ("box", [(TITLE, '<Name LcId="1031">Kasten</Name>')], [("# A box\n", "# Kasten\n")], []),
    ("box", [(TITLE, '<Name LcId="1031">Kasten</Name><Name LcId="1033"><![CDATA[<A> & \u00fc]]></Name>')], [("# A box\n", "# <A> & \u00fc\n")], []),
    ("box", [(TITLE, "<Name>Kasten</Name><Name>Caja</Name>")], [("# A box\n", "# Kasten\n")], []),
    ("box", [(TITLE, "")], [("# A box\n", "")], []),
    ("box", [("A box", "A\n[[type]]\n&#x7F;&#x9B;2J\u202e\u2028 box&#13;")], [("# A box\n", "# A [[type]] 2J box\n")], []),
    ("box", [("A box", "a" * 100)], [("# A box\n", f"# {'a' * 58}..\n")], []),
    # identity
    ("box", [(REVISION, "")], [("revision = 0x00000003\n", "")], ["the revision: the file has none"]),
    ("box", [(REVISION, REVISION + ' CheckRevisionNo="NONE"')], [("revision = 0x00000003\n", "")], ["the revision: any fits"]),
    ("box", [(REVISION, REVISION + ' CheckRevisionNo="EQ_OR_G" UseLrdLwr="1"')], [("]\ninit = [", "]\nlrw = false\ninit = [")], []),
    # PDOs
    ("box", [("<TxPdo>", '<TxPdo Mandatory="1">')], [(" (not assigned as delivered)", ""), (SLAVE, "")], []),
    ("box", [("<TxPdo>", '<TxPdo Sm="3" PdoOrder="1">')], [(" (not assigned as delivered)", ""), (SLAVE, "")], []),
    ("box", [("<Name>Heat</Name>\n", "<Name>Heat</Name><Exclude>#x1A00</Exclude><Exclude>#x1A07</Exclude>")], [("not assigned as delivered", "in place of 0x1A00")], []),
    ("box", [('<RxPdo Sm="2">', "<RxPdo>")], [("# Set:", "# Set (not assigned as delivered):"), ("# out = [0x1600]", "# out = []")], []),
    ("box", [("<TxPdo>", '<TxPdo Virtual="1">')], [(HEAT_LINE, ""), (SLAVE, "")], ["PDO 0x1A01: it is virtual"]),
    ("box", [("<TxPdo>", '<TxPdo OSFac="2">')], [(HEAT_LINE, ""), (SLAVE, "")], ["PDO 0x1A01: it is oversampled"]),
    ("box", [("#x1A01", "#x1A00")], [(HEAT_LINE, ""), (SLAVE, "")], ["PDO 0x1A00: it stands twice"]),
    ("box", [(HEAT, HEAT.replace("8", "64")), ("SINT", "LINT")], [("[0x6001, 1, 8]", "[0x6001, 1, 64]"), ("SINT", "LINT")], []),
    ("box", [(HEAT, HEAT.replace("8", "9"))], [("[0x6001, 1, 8]", "[0x6001, 1, 9]"), (" SINT", "")], ["the data type of entry 0x6001:0x01: SINT has 8 bits, but it has 9"]),
    ("box", [("SINT", "BIT2")], [(" SINT", "")], ["the data type of entry 0x6001:0x01: BIT2 has 2 bits, but it has 8"]),
    ("box", [("SINT", "STRING(10)")], [(" SINT", "")], ["the data type of entry 0x6001:0x01: STRING(10) has 80 bits, but it has 8"]),
    ("box", [(HEAT, HEAT.replace("<SubIndex>1</SubIndex>", ""))], [("[0x6001, 1, 8]", "[0x6001, 0, 8]")], []),
    ("box", [(HEAT, HEAT.replace("8", "0"))], [("[[0x6001, 1, 8]]", "[]"), ("Heat SINT", "nothing")],
     ["the data type of entry 0x6001:0x01: SINT has 8 bits, but it has 0", "entry 0x6001:0x01, which has no bits"]),
    ("box", [("</RxPdo>\n", "</RxPdo>\n" + "".join(pdo("RxPdo", 0x1601 + k) for k in range(17)))],
     [("[[0x7000, 1, 16]] },\n", "[[0x7000, 1, 16]] },\n" + "".join(f"    # PDO (not assigned as delivered): nothing\n    {{ index = 0x{0x1601 + k:04X}, entries = [] }},\n" for k in range(15)))],
     ["PDO 0x1610: a table has 16 in a direction", "PDO 0x1611: a table has 16 in a direction"]),
    ("box", [("</RxPdo>", "".join(entry(0x7001, 1 + k, 64) for k in range(31)) + entry(0x7002, 1, 48) + "</RxPdo>"), (OUT, OUT.replace("#x1100", "#x2000"))],
     [("Speed INT\n    { index = 0x1600", "Speed INT" + ", entry" * 32 + "\n    { index = 0x1600"), ("out_start = 0x1100", "out_start = 0x2000"),
      ("[0x7000, 1, 16]", "[0x7000, 1, 16], " + "".join(f"[0x7001, {1 + k}, 64], " for k in range(31)) + "[0x7002, 1, 48]")], []),
    ("box", [("</TxPdo>\n<TxPdo>", "".join(f"<Entry><Index>#x5000</Index><SubIndex>{k}</SubIndex><BitLen>{bits}</BitLen><DataType>{kind}</DataType></Entry>"
                                            for k, (kind, bits) in enumerate(DATA_TYPES)) + "</TxPdo>\n<TxPdo>")],
     [("Speed INT, gap", "Speed INT, gap, " + ", ".join(f"entry {kind}" for kind, _ in DATA_TYPES)),
      ("[0, 0, 4]", "[0, 0, 4], " + ", ".join(f"[0x5000, {k}, {bits}]" for k, (_, bits) in enumerate(DATA_TYPES)))], []),
    ("box", [("<BitLen>4</BitLen>", "<SubIndex>7</SubIndex><BitLen>4</BitLen><Name>pad</Name><DataType>INT</DataType>")], [], []),
    ("box", [("#x1600", "#x17FF")], [("index = 0x1600", "index = 0x17FF"), ("out = [0x1600]", "out = [0x17FF]")], []),
    # a fixed assignment
    ("box", [(COE, "<CoE>")], [(HEAT_LINE, ""), (SLAVE, ""), ("]\ninit = [", "]\nfixed = true\ninit = [")], ["PDO 0x1A01: it isn't assigned, and the assignment is fixed"]),
    ("box", [(IN, IN.replace("<Sm ", '<Sm FixedAssignment="1" '))], [(HEAT_LINE, ""), (SLAVE, ""), ("]\ninit = [", "]\nfixed = true\ninit = [")],
     ["PDO 0x1A01: it isn't assigned, and the assignment is fixed"]),
    # managers
    ("box", [(BOX_OUT, BOX_OUT.replace("128", "16")), (BOX_IN, BOX_IN.replace("128", "#x20"))], [("[0x1000, 128, 0x1080, 128]", "[0x1000, 16, 0x1080, 32]")], []),
    ("box", [(OUT, OUT.replace("#x24", "#x64")), (IN, IN.replace("#x20", "#x10"))], [("]\ninit = [", "]\nout_manager = [2, 0x64]\nin_manager = [3, 0x10]\ninit = [")], []),
    # its inputs are manager 2, and nothing is in its outputs
    ("box", [(OUT + "Outputs</Sm>\n", ""), ('<TxPdo Sm="3">', '<TxPdo Sm="2">'), ('<RxPdo Sm="2">', "<RxPdo>")],
     [("out_start = 0x1100\n", ""), ("rxpdo = [\n    # Set: Speed INT\n    { index = 0x1600, entries = [[0x7000, 1, 16]] },\n]\n", ""),
      ("]\ninit = [", "]\nout_manager = [3, 0x24]\nin_manager = [2, 0x20]\ninit = ["), ("# out = [0x1600]\n", "")], ["PDO 0x1600: there is no manager for Outputs"]),
    ("pins", [(PINS_OUT, 'StartAddress="#x0F02"'), (PINS_BITS, "<BitLen>16</BitLen>"), ('<Sm DefaultSize="1" StartAddress="#x0F02"', '<Sm StartAddress="#x0F02"')],
     [("0x0F00", "0x0F02"), ("entry BOOL", "entry"), ("[0x7000, 1, 1]", "[0x7000, 1, 16]")], []),
    ("box", [(IN, IN.replace("#x1180", "#x1106"))], [("in_start = 0x1180", "in_start = 0x1106")], []),
    ("pins", [('StartAddress="#x1000"', 'StartAddress="#x2FED"')], [("in_start = 0x1000", "in_start = 0x2FED")], []),
    # init commands
    ("box", [(INIT, command(sub="<SubIndex>#xFF</SubIndex>"))], [("[0x8000, 1, 8, 10]", "[0x8000, 255, 8, 10]")], []),
    ("box", [(INIT, command(data="<Data> 0102\n0304 </Data>") + command(index="#x8001", ways=("IP",), sub="") + command(index="32770", ways=("PS", "IP")))],
     [("    [0x8000, 1, 8, 10],\n", "    [0x8001, 0, 8, 10],\n    [0x8002, 1, 8, 10],\n    [0x8000, 1, 32, 67305985],\n    [0x8002, 1, 8, 10],\n")], []),
    ("box", [(INIT, INIT + command(index="#x8001", ways=("SP", "OS")))], [], ["init command 0x8001:0x01 on the way OS, SP"]),
    ("box", [(INIT, INIT + command(index="#x1C12", attributes=' CompleteAccess="1"') + command(index="#x1C13", data="<Data/>"))], [],
     ["an init command to 0x1C12: the start-up assigns the PDOs", "an init command to 0x1C13: the start-up assigns the PDOs"]),
    *[("box", [(INIT, command(index="#x1C12", sub="", data="<Data>00</Data>") + command(index=index, sub=""))],
       [("[0x8000, 1, 8, 10]", f"[0x1C12, 0, 8, 0],\n    [{index.replace('#', '0')}, 0, 8, 10]")], []) for index in ("#x1600", "#x1A00", "#x1BFF")],
    *[("box", [(INIT, command(index="#x1C12", sub="", data="<Data>00</Data>") + command(index=index, sub=""))],
       [("[0x8000, 1, 8, 10]", f"[{index.replace('#', '0')}, 0, 8, 10]")], ["an init command to 0x1C12: the start-up assigns the PDOs"]) for index in ("#x15FF", "#x1C00")],
    ("box", [(INIT, INIT * 64)], [("    [0x8000, 1, 8, 10],\n", "    [0x8000, 1, 8, 10],\n" * 64)], []),
    ("box", [(INIT, "")], [("init = [\n    [0x8000, 1, 8, 10],\n]\n", "")], []),
    # firmware
    ("pins", [("0401000000000000", "0400")], [("firmware = false\n", "")], []),
    ("pins", [("0401000000000000", "04")], [("firmware = false\n", "")], []),
    ("pins", [("<Eeprom><ConfigData>0401000000000000</ConfigData></Eeprom>", "")],
     [("firmware = false\n", "")], ["whether it has firmware: the file has no data of its EEPROM"]),
    # what a type doesn't have
    ("box", [(END, END + "<Dc><OpMode><AssignActivate>#x300</AssignActivate></OpMode><OpMode><AssignActivate>#x730</AssignActivate></OpMode></Dc>")], [],
     ["distributed clocks, which all its modes use"]),
    ("box", [(END, END + "<Dc><OpMode><AssignActivate>0</AssignActivate></OpMode><OpMode/></Dc>")], [], []),
    ("box", [(END, "<SoE>" + INIT + "</SoE>" + END), (TITLE, TITLE + '<SubDevice ProductCode="1">b</SubDevice>')], [], ["init commands of SoE", "its sub-devices, each a slave of its own"]),
]

# an XML file as bytes, and why it is refused; the words behind `no XML:` are expat's
BOMB = '<!DOCTYPE x [<!ENTITY a "aaaa">' + "".join(f'<!ENTITY a{k} "&a{k - 1 or ""};&a{k - 1 or ""};">' for k in range(1, 40)) + "]>"
FILES = [
    (b"", "it is no XML: "),
    (b"[[type]]\n", "it is no XML: "),
    (b"<EtherCATInfo>\x00</EtherCATInfo>", "it is no XML: "),
    (b"<EtherCATInfo><Vendor></EtherCATInfo>", "it is no XML: "),
    (b"<EtherCATInfo>&a;</EtherCATInfo>", "it is no XML: "),
    (b"<EtherCATInfo>&#xD800;</EtherCATInfo>", "it is no XML: "),
    (b'<?xml version="1.0"?><EtherCATInfo>\xe4</EtherCATInfo>', "it is no XML: "),
    (b'<?xml version="1.0" encoding="nothing"?><EtherCATInfo/>', "it is no XML: "),
    (b'<?xml version="1.0" encoding="gbk"?><EtherCATInfo/>', "it is no XML: "),
    (BOMB.encode() + b"<EtherCATInfo>&a39;</EtherCATInfo>", "it has a document type, which no ESI file has"),
    (b'<!DOCTYPE x [<!ENTITY e SYSTEM "file:///etc/passwd">]><EtherCATInfo><Vendor><Id>&e;</Id></Vendor></EtherCATInfo>', "it has a document type, which no ESI file has"),
    (b"<EtherCATInfo>" + b"<b/>" * 100 + b"<a>" * 64, "its elements are over 64 deep"),
    (b"<EtherCATInfo>" + b"<a>" * 1000000, "its elements are over 64 deep"),
    (b"<EtherCATConfig/>", "it is no ESI file: its element is EtherCATConfig"),
    (b"<EtherCATInfo/>", "the vendor's number is missing"),
    (b"<EtherCATInfo><Vendor><Id>#x100000000</Id></Vendor></EtherCATInfo>", "the vendor's number is #x100000000; it may be 0 to 4294967295"),
    (b"<EtherCATInfo><Vendor><Id>1</Id></Vendor></EtherCATInfo>", "it has no such device"),
]
