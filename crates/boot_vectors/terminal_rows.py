#!/usr/bin/env python3
"""Makes rows of the stdin of this crate: programs over terminals and pipes, terminals that fail in each of their calls
in turn, scripts that are refused, and limits. src/row.rt has the fields of a row.

What programs over terminals write is worked out by a second implementation, which stands in terminal_model.py and
shares no text with the program; where the bytes of a row are known, it is compared with them. The rows of pipes, of
signals, of limits and of the shell are worked out by hand."""

from pathlib import Path

import routines
from assemble import assemble
from terminal_model import Machine

EXAMPLES = Path(__file__).resolve().parents[2] / "examples"

# The programs in assembler. A program opens T1, T2 and T3 as its paths 3, 4 and 5, and shows on T3 what each call
# answers: carry and B, and Y, as lines of four digits; of a read that is done the bytes too.
SHOW = routines.SHOW + """report  pshs    cc,a,b,x,y
        tfr     cc,a
        anda    #1
        lbsr    show
        tfr     y,d
        lbsr    show
        puls    cc,a,b,x,y,pc
"""
OPENING = """
start   leax    t1,pcr
        lda     #3
        os9     $84
        leax    t2,pcr
        lda     #3
        os9     $84
        leax    t3,pcr
        lda     #3
        os9     $84
"""
BYTES = """
bytes   bcs     none
        ldx     #$100
        lda     #5
        os9     $8A
none    rts
t1      fcs     "/T1"
t2      fcs     "/T2"
t3      fcs     "/T3"
"""
PATHS = [1, 3, 4, 5]


def step_source(number, kind, *rest):
    if kind in ("read", "readln"):
        code = "89" if kind == "read" else "8B"
        return f"""
        ldx     #$100
        ldy     #{rest[1]}
        lda     #{PATHS[rest[0]]}
        clrb
        os9     ${code}
        lbsr    report
        lbsr    bytes
"""
    if kind in ("write", "writln"):
        code = "8A" if kind == "write" else "8C"
        return f"""
        leax    text{number},pcr
        ldy     #{len(rest[1])}
        lda     #{PATHS[rest[0]]}
        clrb
        os9     ${code}
        lbsr    report
"""
    if kind == "perr":
        return f"        ldb     #{rest[1]}\n        ldy     #0\n        os9     $0F\n        lbsr    report\n"
    if kind == "fork":
        return """
        leax    child,pcr
        ldy     #0
        ldu     #0
        lda     #$11
        clrb
        os9     $03
        lbsr    report
"""
    if kind == "wait":
        return "        ldy     #0\n        os9     $04\n        lbsr    report\n"
    if kind == "sleep":
        return f"        ldx     #{rest[0]}\n        os9     $0A\n"
    return f"        ldb     #{rest[0]}\n        os9     $06\n"


def guest_module(name, steps):
    code = "".join(step_source(number, *step) for number, step in enumerate(steps))
    texts = "".join(
        f"text{number}  fcb     {','.join(str(code) for code in step[2])}\n"
        for number, step in enumerate(steps)
        if step[0] in ("write", "writln")
    )
    return module(name, OPENING + code + SHOW.replace("PATH", "5") + BYTES + 'child   fcs     "Child"\n' + texts)


def module(name, text, storage=2048):
    return assemble(f"        mod {name},$11,$81,{storage}\n{text}        emod\n")


def line(words, modules, slices, script, status, out, err="-", failing="-"):
    """A row. The script is a text, or its field."""
    script = script if isinstance(script, str) else script.hex()
    fields = [words, modules.hex(), 0, slices.encode().hex(), script or "-", status, out.hex() or "-", err, failing]
    print(*fields, sep="\t")


RUN = "run modules --slices slices --script script"


def script_text(keys):
    return "".join(f"{tick} {name} {' '.join(f'{key:02X}' for key in codes)}\n" for tick, name, codes in keys).encode()


def guest(programs, keys, slices, failing=None):
    """A row of programs, worked out by the second implementation. Answers what is written."""
    modules = b"".join(guest_module(name, steps) for name, steps in programs.items())
    status, out = Machine(programs, keys, failing or {}).run(slices)
    calls = ",".join(f"{name} {call}" for name, numbers in (failing or {}).items() for call in numbers)
    line(RUN, modules, f"10000*{slices}", script_text(keys), status, out, failing=calls or "-")
    return out


def title(text):
    print("#", text)


def codes(text):
    return list(bytes.fromhex(text))


def worked():
    """Rows whose bytes are known by name."""
    title("a line with editing: a character and a line taken back, the last line again, the end of the file")
    out = guest({"SysGo": [("readln", 0, 80)] * 3 + [("exit", 0)]}, [
        (2, "TERM", codes("61 62 78 08 63 0D")), (3, "TERM", codes("7A 7A 18 01 0D")), (4, "TERM", codes("1B")),
    ], 5)
    first = bytes(codes("61 62 78 08 20 08 63 0D 0A")) + b"0000\r\n0004\r\nabc\r"
    second = bytes(codes("7A 7A 08 20 08 08 20 08 61 62 63 0D 0A")) + b"0000\r\n0004\r\nabc\r"
    assert out == first + second + b"01D3\r\n0050\r\n"
    title("a terminal that fails at the second byte of three")
    out = guest({"SysGo": [("write", 0, b"abc"), ("exit", 0)]}, [], 3, {"TERM": [3]})
    assert out == b"a01F5\r\n0003\r\n"
    title("a terminal that fails at the line feed")
    guest({"SysGo": [("writln", 0, b"ab\rc"), ("writln", 0, b"d\r"), ("exit", 0)]}, [], 3, {"TERM": [5]})
    title("the number of an error, on standard error")
    out = guest({"SysGo": [("perr", 0, 216), ("exit", 0)]}, [], 3)
    assert out == b"ERROR #216\r\n00D8\r\n0000\r\n"
    title("the number of an error where the terminal fails")
    guest({"SysGo": [("perr", 0, 216), ("exit", 0)]}, [], 3, {"TERM": [9]})
    title("a poll that fails: its keys arrive in the next tick")
    guest({"SysGo": [("readln", 0, 80), ("exit", 0)]}, [(1, "TERM", codes("61 0D"))], 4, {"TERM": [1]})
    title("one key of T1")
    guest({"SysGo": [("read", 1, 1), ("exit", 0)]}, [(4, "T1", codes("41"))], 6)


def failing_terminals():
    """Each call of a terminal fails in turn."""
    steps = [("write", 0, b"a"), ("readln", 0, 80), ("read", 0, 9), ("readln", 0, 80), ("exit", 0)]
    keys = [(2, "TERM", codes("62 08 63 0D")), (3, "TERM", codes("64 0D")), (4, "TERM", codes("01 0D"))]
    title("TERM fails in call 1, 2 and so on, and in none, of a write, a line with editing, a read and the last line")
    whole = Machine({"SysGo": steps}, keys, {})
    whole.run(7)
    for call in range(1, whole.terms[0].calls + 2):
        guest({"SysGo": steps}, keys, 7, {"TERM": [call]})
    parent = [("fork", "Child"), ("readln", 1, 80), ("readln", 1, 80), ("wait",), ("exit", 0)]
    child = [("writln", 1, b"hi\r"), ("write", 1, b"xyz"), ("exit", 7)]
    keys = [(2, "T1", codes("61 62")), (4, "T1", codes("63 0D")), (5, "T1", codes("01 0D"))]
    title("T1 fails in the middle of a run: one process has typed a half of a line, and another one writes")
    for call in range(5, 15):
        guest({"SysGo": parent, "Child": child}, keys, 9, {"T1": [call]})
    title("T1 fails in a poll, then in two writes, and again")
    guest({"SysGo": parent, "Child": child}, keys, 9, {"T1": [2, 8, 12, 14]})
    title("a poll that fails behind a bell ends, and a bell that fails is passed over")
    keys = [(2, "TERM", [0x61] * 259), (3, "TERM", codes("0D"))]
    for call in (260, 261):
        guest({"SysGo": [("sleep", 1), ("readln", 0, 80), ("readln", 0, 80), ("exit", 0)]}, keys, 6, {"TERM": [call]})


def long_lines():
    title("a line of 300 characters: 256 are kept, and 255 of them and the carriage return are the line")
    keys = [(2, "TERM", list(range(0x21, 0x7F)) * 3 + [0x41] * 18), (3, "TERM", codes("08 42 0D"))]
    guest({"SysGo": [("readln", 0, 400), ("exit", 0)]}, keys, 5)
    title("a read of 400 bytes has 256, and the rest is the next one's")
    keys = [(2, "TERM", [0x61] * 200), (3, "TERM", [0x62] * 100), (4, "TERM", codes("0D"))]
    guest({"SysGo": [("read", 0, 400), ("read", 0, 400), ("exit", 0)]}, keys, 6)
    title("a line of 300 characters is written whole")
    text = bytes(range(0x21, 0x7F)) * 3 + b"A" * 18 + b"\r"
    guest({"SysGo": [("writln", 0, text), ("exit", 0)]}, [], 3)


def erased_lines():
    title("the longest line, which is erased and comes again, twice; and bytes as they are, where 1B comes first")
    keys = [(2, "TERM", codes("78") * 200), (3, "TERM", codes("78") * 56 + codes("0D")), (5, "TERM", codes("01 01 0D")),
            (7, "TERM", codes("1B")), (8, "TERM", codes("08 1B 01"))]
    steps = [("readln", 0, 400), ("readln", 0, 400), ("read", 0, 3), ("read", 0, 3), ("exit", 0)]
    out = guest({"SysGo": steps}, keys, 12)
    line_of, erased, told = b"x" * 255, b"\x08 \x08" * 255, b"0000\r\n0100\r\n" + b"x" * 255 + b"\r"
    first = line_of + b"\x07\r\n" + told
    again = line_of + erased + line_of + b"\r\n" + told
    assert out == first + again + b"01D3\r\n0003\r\n" + b"\x08\x1b\x01" + b"0000\r\n0003\r\n\x08\x1b\x01"

def texts():
    """Scripts and slices that are refused, with the least line that breaks a rule."""
    steps = {"SysGo": [("writln", 0, b"hi\r"), ("exit", 0)]}
    modules = guest_module("SysGo", steps["SysGo"])
    out = b"hi\r\n0000\r\n0003\r\n"
    for name, script, at in [
        ("ticks that fall", b"2 TERM 61 0D\n1 TERM 62", 2),
        ("a tick past the limit, behind one at the limit", b"1000000 TERM 61\n1000001 TERM 61\n", 2),
        ("a tick past what a machine word holds", b"18446744073709551617 TERM 61\n", 1),
        ("a terminal that is not there", b"# keys\n\n1 T3 61\n1 T4 61\n1 T5 61", 4),
        ("a line without keys, behind blank lines", b"\n\n1 TERM\n", 3),
        ("a key of one digit", b"1 TERM 61 0D\n1 TERM 6\n", 2),
        ("a space behind a line", b"1 TERM 61 \n", 1),
        ("a tab", b"1 TERM 61\n1\tTERM 61\n", 2),
    ]:
        title("a script with " + name)
        line(RUN, modules, "10000*3", script, 7, b"", f"os9: script: line {at}")
    title("slices of no instruction, with a script that is accepted; with a script that is not, which is read first")
    line(RUN, modules, "5*0", b"1 TERM 61\n", 7, b"", "os9: slices: line 1")
    line(RUN, modules, "5*0", b"1 TERM 61\n1 TERM\n", 7, b"", "os9: script: line 2")
    title("a key that arrives at the last tick of a script, in the last of 1,000,000 slices")
    last = guest_module("SysGo", [("readln", 0, 80), ("exit", 0)])
    line(RUN, last, "1000*2 1*999997 1000", b"1000000 TERM 61 0D\n", 0, b"a\r\n0000\r\n0002\r\na\r")
    title("1,000,000 keys, which are due after the run; one more, in a line of their own and in one line")
    many, more, next_line = b"1000000 TERM".hex(), b" 61".hex(), b"\n1000000 T1 62".hex()
    line(RUN, modules, "10000*3", f"{many},{more}*1000000", 0, out)
    line(RUN, modules, "10000*3", f"{many},{more}*1000000,{next_line}", 7, b"", "os9: script: line 2")
    line(RUN, modules, "10000*3", f"{many},{more}*1000001", 7, b"", "os9: script: line 1")


def by_hand(name, programs, status, words, slices="10000*9", script=b"", failing="-"):
    """A row whose programs show words on TERM, or what they write themselves."""
    title(name)
    modules = b"".join(module(one, code + SHOW.replace("PATH", "1")) for one, code in programs.items())
    out = words if isinstance(words, bytes) else b"".join(word.encode() + b"\r\n" for word in words.split())
    line(RUN, modules, slices, script, status, out, failing=failing)


PIPE = """
pipe    fcs     "/PIPE"
"""
CHILD = """
child   fcs     "Child"
"""
FORK = """
        leax    <child,pcr
        ldy     #0
        ldu     #0
        lda     #$11
        clrb
        os9     $03
"""
EXIT = """
        clrb
        os9     $06
"""


def pipes():
    # Path 0 is the pipe, which the child has too. The writer fills it with 256 bytes and waits; the reader gets them,
    # then the 44 that are left, and nothing once the writer has ended.
    by_hand("a pipe between two processes: 300 bytes", {"SysGo": f"""
start   clra
        os9     $8F
        leax    <pipe,pcr
        lda     #3
        os9     $84
{FORK}
        ldx     #$100
        ldy     #300
        clra
        clrb
        os9     $8A
        lbsr    report
{EXIT}{PIPE}{CHILD}""", "Child": f"""
start   bsr     part
        bsr     part
        bsr     part
{EXIT}
part    ldx     #$200
        ldy     #512
        clra
        clrb
        os9     $89
        lbsr    report
        rts
"""}, 0, "0000 0100 0000 012C 0000 002C 01D3 0200")
    # The first process alone holds the pipe.
    by_hand("a pipe that one process holds: empty, filled, and a byte too many", {"SysGo": f"""
start   leax    <pipe,pcr
        lda     #3
        os9     $84
        ldy     #80
        lda     #3
        ldx     #$200
        clrb
        os9     $89
        lbsr    report
        ldy     #256
        lda     #3
        clrb
        os9     $8A
        lbsr    report
        ldy     #1
        lda     #3
        clrb
        os9     $8A
        lbsr    report
        lda     #3
        ldb     #1
        os9     $8D
        lbsr    report
        ldy     #512
        lda     #3
        clrb
        os9     $89
        lbsr    report
{EXIT}{PIPE}"""}, 0, "01D3 0050 0000 0100 01F5 0001 00FF 0001 0000 0100")
    # Two numbers of one process are one holder: its wait would be of no use.
    by_hand("a pipe on two paths of one process", {"SysGo": f"""
start   leax    <pipe,pcr
        lda     #3
        os9     $84
        os9     $82
        tfr     a,b
        clra
        lbsr    show
        lda     #3
        ldy     #80
        ldx     #$200
        clrb
        os9     $89
        lbsr    report
{EXIT}{PIPE}"""}, 0, "0004 01D3 0050")
    by_hand("a line through a pipe that a child has as path 0", {"SysGo": f"""
start   clra
        os9     $8F
        leax    <pipe,pcr
        lda     #3
        os9     $84
{FORK}
        leax    <lines,pcr
        ldy     #4
        clra
        clrb
        os9     $8A
        lbsr    report
        os9     $04
{EXIT}{PIPE}{CHILD}
lines   fcb     $61,$0D,$62,$0D
""", "Child": f"""
start   ldx     #$200
        ldy     #80
        clra
        clrb
        os9     $8B
        lbsr    report
        ldx     #$200
        lda     #1
        os9     $8C
{EXIT}"""}, 0, b"0000\r\n0004\r\n0000\r\n0002\r\na\r\n")

    # The child, which holds the pipe too, reads nothing, and its signal ends the write: 256 bytes have moved.
    by_hand("a write to a full pipe that a signal ends", {"SysGo": f"""
start   leax    routine,pcr
        ldu     #$80
        os9     $09
        clra
        os9     $8F
        leax    <pipe,pcr
        lda     #3
        os9     $84
{FORK}
        ldx     #$100
        ldy     #300
        clra
        os9     $8A
        lbsr    report
        os9     $04
{EXIT}
routine clra
        lbsr    show
        rti
{PIPE}{CHILD}""", "Child": f"""
start   ldx     #2
        os9     $0A
        lda     #2
        ldb     #7
        os9     $08
{EXIT}"""}, 0, "0007 0107 0100")

def limits():
    # Paths 0 to 2 are one path; thirteen more are opened, then one is refused, and so is a further image of one.
    by_hand("a process with sixteen paths", {"SysGo": """
start   clr     <$30
again   leax    <term,pcr
        lda     #3
        clrb
        os9     $84
        bcs     refused
        inc     <$30
        bra     again
refused lbsr    report
        lda     #1
        clrb
        os9     $82
        lbsr    report
        lda     #7
        os9     $8F
        lda     #1
        clrb
        os9     $82
        tfr     a,b
        lda     <$30
        lbsr    show
        clrb
        os9     $06
term    fcs     "/TERM"
"""}, 0, "01C8 0800 01C8 0800 0D07")
    # The first process has two of the paths, TERM and one more; each child opens thirteen, of its own. 64 are open
    # when the fifth child has opened ten.
    by_hand("sixty-four paths", {"SysGo": f"""
start   leax    <term,pcr
        lda     #3
        os9     $84
        lda     #5
        sta     <$30
again   {FORK.strip()}
        ldx     #1
        os9     $0A
        lda     <$30
        deca
        sta     <$30
        bne     again
        ldx     #0
        os9     $0A
{CHILD}
term    fcs     "/TERM"
""", "Child": """
start   clr     <$30
again   leax    <term,pcr
        lda     #3
        clrb
        os9     $84
        bcs     refused
        inc     <$30
        bra     again
refused lda     <$30
        lbsr    show
        ldx     #0
        os9     $0A
term    fcs     "/t2"
"""}, 5, "0DC8 0DC8 0DC8 0DC8 0AC8", "10000*20")
    # Sixteen pipes: thirteen of the first process and three of its child, which may still open a terminal.
    by_hand("sixteen pipes", {"SysGo": f"""
start   lda     #13
        sta     <$30
again   leax    <pipe,pcr
        lda     #3
        clrb
        os9     $84
        lbsr    report
        lda     <$30
        deca
        sta     <$30
        bne     again
{FORK}
        os9     $04
{EXIT}{PIPE}{CHILD}""", "Child": f"""
start   lbsr    open
        lbsr    open
        lbsr    open
        lbsr    open
        leax    <term,pcr
        lda     #3
        clrb
        os9     $84
        lbsr    report
        lda     #4
        os9     $8F
        lbsr    open
{EXIT}
open    leax    <pipe,pcr
        lda     #3
        clrb
        os9     $84
        lbsr    report
        rts
term    fcs     "/TERM"
{PIPE}"""}, 0, "0000 0800 " * 13 + "0000 0800 " * 3 + "01C8 0800 0000 0800 0000 0800")
    # Without memory no byte is read or stored; 65,535 bytes fit nowhere, and that is said before the path is looked at.
    reads = "".join(f"""
        ldx     #$4000
        ldy     #{count}
        lda     #{path}
        clrb
        os9     ${code}
        lbsr    report
""" for code in ("89", "8B", "8A", "8C") for count, path in [(0, 1), (0, 9), (65535, 9)])
    zero = "0000 0000 01C9 0000 01D2 FFFF "
    by_hand("reads and writes of no byte, and of 65,535, where no memory is",
            {"SysGo": f"start   nop\n{reads}{EXIT}"}, 0, zero * 4)
    # A line of which only the part up to its carriage return is in memory; a buffer that ends with its slot, and one
    # that passes it by a byte.
    by_hand("bytes at the end of a slot", {"SysGo": f"""
start   ldd     #$410D
        std     $1FFE
        ldx     #$1FFE
        ldy     #65535
        lda     #1
        clrb
        os9     $8C
        lbsr    report
        ldx     #$1FFE
        ldy     #3
        lda     #1
        clrb
        os9     $8A
        lbsr    report
        ldx     #$1FFE
        ldy     #2
        lda     #1
        clrb
        os9     $8A
        lbsr    report
        ldx     #$1FFE
        ldy     #3
        clra
        clrb
        os9     $8B
        lbsr    report
        ldx     #$1FFE
        ldy     #2
        clra
        clrb
        os9     $8B
        lbsr    report
{EXIT}"""}, 0, b"A\r\n0000\r\n0002\r\n01D2\r\n0003\r\nA\r0000\r\n0002\r\n01D2\r\n0003\r\nB\x07\r\n0000\r\n0002\r\n",
            script=b"1 TERM 42 43 0D\n")
    by_hand("the number of an error without standard error", {"SysGo": f"""
start   lda     #2
        os9     $8F
        ldb     #216
        ldy     #5
        os9     $0F
        lbsr    report
{EXIT}"""}, 0, "01C9 0005")


def refusals():
    # A path that is not open is told before a code that is none, and that before memory that is not there.
    asked = "".join(f"""
        ldx     #$4000
        lda     #{path}
        ldb     #{code}
        os9     $8D
        lbsr    report
""" for path, code in [(9, 255), (1, 255), (9, 0), (1, 0)])
    by_hand("the order of the refusals of I$GetStt", {"SysGo": f"start   ldy     #0\n{asked}{EXIT}"},
            0, "01C9 0000 01D0 0000 01C9 0000 01D2 0000")
    # Sixteen numbers are in use: a device that is not there is told first, and so is a mode without a bit.
    opened = "".join(f"""
        leax    <{name},pcr
        lda     #{mode}
        clrb
        os9     $84
        lbsr    report
""" for name, mode in [("none", 3), ("term", 8), ("term", 3)])
    by_hand("the order of the refusals of I$Open", {"SysGo": f"""
start   ldy     #0
again   lda     #1
        os9     $82
        bcc     again
{opened}{EXIT}
none    fcs     "/T4"
term    fcs     "/TERM"
"""}, 0, "01DD 0000 01CB 0000 01C8 0000")


def signals():
    # Key 03 of tick 3 ends the child, which reads, though the poll fails at the next call; that key comes a tick later.
    waiting = f"""
start   nop
{FORK}
        os9     $04
        lbsr    report
"""
    by_hand("a key 03 before a fault that ends the poll", {"SysGo": f"""{waiting}
        ldx     #$200
        ldy     #80
        clra
        clrb
        os9     $8B
        lbsr    report
{EXIT}{CHILD}""", "Child": """
start   ldx     #$200
        ldy     #80
        clra
        os9     $8B
        ldb     #1
        os9     $06
"""}, 0, b"0003\r\n0000\r\na\r\n0000\r\n0002\r\n", script=b"3 TERM 03 61 0D\n", failing="TERM 4")
    # The child's write fails, and still it is the last user.
    by_hand("a key 03 after a write that failed", {"SysGo": f"{waiting}{EXIT}{CHILD}", "Child": """
start   leax    <text,pcr
        ldy     #1
        lda     #1
        os9     $8A
        bcs     refused
        clrb
        os9     $06
refused ldx     #0
        os9     $0A
text    fcb     $41
"""}, 0, "0003 0000", script=b"3 TERM 03\n", failing="TERM 3")
    # The last user of T1 has ended, and process 3 is another one when the key arrives.
    started = """
        tfr     a,b
        clra
        lbsr    show
        os9     $04
        lbsr    report
"""
    later = FORK.replace("child,pcr", "later,pcr")
    by_hand("a key 03 of a terminal whose last user has ended, when its number is used again", {"SysGo": f"""
start   nop
{FORK}{started}{later}{started}{EXIT}{CHILD}
later   fcs     "Later"
""", "Child": """
start   leax    <term,pcr
        lda     #3
        os9     $84
        leax    <text,pcr
        ldy     #1
        os9     $8A
        clrb
        os9     $06
text    fcb     $41
term    fcs     "/T1"
""", "Later": """
start   ldx     #6
        os9     $0A
        clrb
        os9     $06
"""}, 0, b"0003\r\nA0000\r\n0000\r\n0003\r\n0000\r\n0000\r\n", "10000*20", b"7 T1 03\n")

    # The child was the last user, so 05 ends it, and 03 finds nobody. The other keys wait for a read.
    by_hand("keys that signal the last of two users", {"SysGo": f"""
start   leax    <one,pcr
        ldy     #1
        lda     #1
        os9     $8A
{FORK}
        os9     $04
        lbsr    report
        lda     #0
        ldb     #1
        os9     $8D
        lbsr    report
{EXIT}{CHILD}
one     fcb     $31
""", "Child": """
start   leax    <two,pcr
        ldy     #1
        lda     #1
        os9     $8A
        ldx     #0
        os9     $0A
two     fcb     $32
"""}, 0, b"120002\r\n0000\r\n0003\r\n0000\r\n", script=b"5 TERM 61 05 62 03 63\n")
    # Signal 7 ends the child's read, in which two keys were used; they are dropped with it.
    by_hand("one reader of a terminal at a time", {"SysGo": f"""
start   nop
{FORK}
        ldx     #5
        os9     $0A
        lda     #3
        ldb     #7
        os9     $08
        ldx     #$200
        ldy     #3
        clra
        clrb
        os9     $89
        lbsr    report
        ldx     #$200
        ldy     #3
        lda     #1
        os9     $8A
        os9     $04
        lbsr    report
{EXIT}{CHILD}""", "Child": """
start   ldx     #$200
        ldy     #3
        clra
        os9     $89
"""}, 0, b"abcde0000\r\n0003\r\ncde0007\r\n0003\r\n", script=b"3 TERM 61 62\n9 TERM 63 64 65\n")

def shell():
    """The shell of examples/ and its programs."""
    shell, hello, say = (assemble((EXAMPLES / f"{name}.asm").read_text()) for name in ("shell", "greet", "say"))
    title("the shell: a program that it starts, and the end of the file")
    line(RUN, shell + hello, "1000*20", b"1 TERM 48 65 6C 6C 6F 0D 1B\n", 0, b"OS9:Hello\r\nHello\r\nOS9:")
    # Blanks are parameters; the status 7 of a program, no program of a name, and an empty line are errors.
    seven = module("Seven", "start   ldb     #7\n        os9     $06\n")
    typed = b"Say  a b\rSeven\rNobody\r\r\x1B"
    title("the shell: parameters, and errors")
    line(RUN, shell + say + seven, "1000*40", script_text([(1, "TERM", typed)]), 0,
         b"OS9:Say  a b\r\na b\r\nOS9:Seven\r\nERROR #007\r\nOS9:Nobody\r\nERROR #216\r\nOS9:\r\nERROR #215\r\nOS9:")


def main():
    worked()
    failing_terminals()
    signals()
    refusals()
    long_lines()
    erased_lines()
    texts()
    pipes()
    limits()
    shell()


if __name__ == "__main__":
    main()
