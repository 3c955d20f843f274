"""Worked cases of a trace. Each wanted line was worked out by hand from docs/MACHINE.md: the image's page is frame 67,
the first free frame is 71, and there are 512."""
import dataclasses

# Where the image is linked.
HOME = 0xFFFF_FFFF_8000_0000

# The opening of each trace from the run's first step on.
OPENING = (
    "state turn 0 outer cpl 0 rip ffffffff80000000 flags 0000000000000002 rax 0000000000000000 rcx 0000000000000000"
    " rdx 0000000000000000 rbx 0000000000000000 rsp ffffff8000004000 rbp 0000000000000000 rsi 0000000000000200"
    " rdi 0000000000000047 r8 0000000000000000 r9 0000000000000000 r10 0000000000000000 r11 0000000000000000"
    " r12 0000000000000000 r13 0000000000000000 r14 0000000000000000 r15 0000000000000000 ss 0010"
    " cr0 0000000080010001 cr2 0000000000000000 cr3 0000000000005000 cr4 0000000000100020 pending 0000 shielded 0 halted 0\n")


@dataclasses.dataclass(frozen=True)
class Case:
    """A text that is traced under a plan, the words behind FRAMES, and what is wanted: the status, the whole output or
    its beginning and its end, and what stands in it once. A room is the most bytes that the output's file takes."""
    name: str
    text: bytes
    words: tuple = ()
    plan: str = ""
    steps: str = "100"
    room: int = None
    status: int = 0
    whole: str = None
    head: str = ""
    tail: str = ""
    once: tuple = ()


# MOV EAX, 5; SUB EAX, 5; PUSH RSI; HLT. RSI is 200, so that the push changes one byte.
PUSHES = bytes.fromhex("b805000000 83e805 56 f4")

PUSH = ("2 outer 0 ffffffff80000008 56 push.64 - r6 0; rsp ffffff8000003ff8; mem 0000000000003ff9 02;"
        " fill ffffff8000003000 frame 3 rw--\n")

# MOV EAX, [1000], which isn't there: six numbers on the trap stack, of which 0 changes nothing. Eight bytes in a row
# that stay end a run.
ABSENT = bytes.fromhex("8b042500100000")

# XOR EDI, EDI; MOV RAX, the gates' text; CALL RAX; HLT. The body is turn 11; WP is clear from turn 9 to turn 14.
CALLS = bytes.fromhex("31ff 48b80010000080ffffff ffd0 f4")

CALL = ("11 nested 0 ffffff800000101b - call 0 none a 0000000000000200 b 0000000000000000 c 0000000000000000"
        " d 0000000000000000; rip ffffff800000101d; r9 0000000000000001; refused 1 BadCall\n")

# NOP; NOP; MOV AL, 41; HLT
PLAIN = bytes.fromhex("90 90 b041 f4")

# NOP; JMP to itself
LOOP = bytes.fromhex("90 ebfe")

FIRST_NOP = "0 outer 0 ffffffff80000000 90 nop.64 - - 0; fill ffffffff80000000 frame 67 r-x-\n"

HALT = "0 outer 0 ffffffff80000000 f4 hlt.64 - - 0; fill ffffffff80000000 frame 67 r-x-; halted\n"

CASES = [
    Case("registers and flags by name, and the place and the bytes of a push", PUSHES, whole=OPENING
         + "0 outer 0 ffffffff80000000 b805000000 mov.32 r0 value 5; rax 0000000000000005;"
           " fill ffffffff80000000 frame 67 r-x-\n"
           "1 outer 0 ffffffff80000005 83e805 sub.32 r0 value 5; rax 0000000000000000; pf 1; zf 1\n" + PUSH
         + "3 outer 0 ffffffff80000009 f4 hlt.64 - - 0; halted\nend halted\nturns 4\n"),
    Case("the steps that change memory", PUSHES, ("--only", "memory"), whole=OPENING + PUSH + "end halted\nturns 4\n"),
    Case("the parts of a page fault", ABSENT, ("0", "0"), whole=OPENING
         + "0 outer 0 ffffffff80000000 8b042500100000 mov.32 r0 [-,-,1,1000] 0; rip ffffff80000010b0;"
           " rsp ffffff8000003fd0; cr2 0000000000001000; mem 0000000000003fdb 80ffffffff080000000000000002;"
           " mem 0000000000003ff1 40000080ffffff10; fill ffffffff80000000 frame 67 r-x-;"
           " fill ffffff8000000000 frame 0 r---; fill ffffff8000003000 frame 3 rw--;"
           " deliver 14 #PF code 0 (absent read supervisor data) cr2 0000000000001000\nend to\nturns 1\n"),
    # The RIP that is pushed is behind the instruction; the bytes before the code segment's selector change.
    Case("INT 20 has no error code", bytes.fromhex("cd20"), ("0", "0"), whole=OPENING
         + "0 outer 0 ffffffff80000000 cd20 int.64 - value 20; rip ffffff8000001140; rsp ffffff8000003fd8;"
           " mem 0000000000003fd8 02000080ffffffff080000000000000002; mem 0000000000003ff1 40000080ffffff10;"
           " fill ffffffff80000000 frame 67 r-x-; fill ffffff8000000000 frame 0 r---;"
           " fill ffffff8000003000 frame 3 rw--; deliver 32 interrupt\nend to\nturns 1\n"),
    Case("a call and its rule", CALLS, ("--only", "call"), whole=OPENING + CALL + "end halted\nturns 22\n"),
    Case("the gate's steps with WP clear", CALLS, ("--only", "gate"), whole=OPENING
         + "9 gate 0 ffffff8000001010 fa cli.64 - - 0\n"
           "10 gate 0 ffffff8000001011 48bc0050000080ffffff mov.64 r4 value ffffff8000005000; rsp ffffff8000005000\n"
         + CALL
         + "12 gate 0 ffffff800000101d 0f20c0 movfc.64 r0 - 0\n"
           "13 gate 0 ffffff8000001020 0d00000100 or.32 r0 value 10000; rax 0000000080010001\n"
           "14 gate 0 ffffff8000001025 0f22c0 movtc.64 - r0 0; cr0 0000000080010001\nend halted\nturns 22\n"),
    Case("events where they are taken", bytes.fromhex("909090f4"), ("--only", "event"),
         "1 irq 33\n2 drop ffffffff80000000\n", whole=OPENING
         + "1 outer 0 ffffffff80000001 - event irq 33\n"
           "2 outer 0 ffffffff80000002 - event drop ffffffff80000000; drop ffffffff80000000\nend halted\nturns 4\n"),
    # Entry 511 of the root names frame 6; of an address its pages share, the low 39 bits are clear.
    Case("upper entries that are kept, and go", bytes.fromhex("909090f4"), ("--only", "event"),
         "1 keep 4 ffffffff80000000\n2 forget 4 ffffffff80000000\n", whole=OPENING
         + "1 outer 0 ffffffff80000001 - event keep 4 ffffffff80000000; keep 4 ffffff8000000000 frame 6 rwxu\n"
           "2 outer 0 ffffffff80000002 - event forget 4 ffffffff80000000; forget 4 ffffff8000000000\n"
           "end halted\nturns 4\n"),
    # STI shields the next instruction; then the vector is delivered, with IF set in the flags that are pushed.
    Case("an interrupt behind a shield", bytes.fromhex("fb9090f4"), ("0", "2", "--only", "delivery"), "1 irq 33\n",
         whole=OPENING
         + "2 outer 0 ffffffff80000002 - interrupt 33; rip ffffff8000001148; rsp ffffff8000003fd8; if 0;"
           " mem 0000000000003fd8 02000080ffffffff080000000000000002020000000000000040000080ffffff10;"
           " fill ffffff8000000000 frame 0 r---; fill ffffff8000003000 frame 3 rw--; deliver 33 interrupt\n"
           "end to\nturns 3\n"),
    # MOV AL, 41; OUT E9, AL
    Case("the console", bytes.fromhex("b041 e6e9 f4"), ("--only", "console"), whole=OPENING
         + "1 outer 0 ffffffff80000002 e6e9 out.8 value r0 e9; console 41\nend halted\nturns 3\n"),
    Case("from turn 1 to turn 2", PLAIN, ("1", "2"), head="state turn 1 outer cpl 0 rip ffffffff80000001 flags",
         tail="\n1 outer 0 ffffffff80000001 90 nop.64 - - 0\n"
              "2 outer 0 ffffffff80000002 b041 mov.8 r0 value 41; rax 0000000000000041\nend to\nturns 3\n"),
    Case("changes from turn 1 on, until an address", PLAIN, ("1", "--changes", "--until", f"{HOME + 4:x}"),
         tail=" cr4 0000000000100020 pending 0000 shielded 0 halted 0\n2 outer 0 ffffffff80000002 b041 mov.8 r0 value 41; rax 0000000000000041\n"
              "end until\nturns 3\n"),
    Case("until the second of two addresses", PLAIN, ("--until", f"{HOME + 4:x}", "--until", f"{HOME + 2:x}"), whole=OPENING
         + FIRST_NOP + "1 outer 0 ffffffff80000001 90 nop.64 - - 0\nend until\nturns 2\n"),
    Case("until an address whose step isn't shown", PLAIN, ("--only", "console", "--until", f"{HOME + 2:x}"),
         whole=OPENING + "end until\nturns 2\n"),
    Case("a run that ends before the first step shown", PLAIN, ("1", "--changes", "--until", f"{HOME + 4:x}"),
         steps="1", tail=" cr4 0000000000100020 pending 0000 shielded 0 halted 0\nend steps\nturns 1\n"),
    # The gates' text begins with PUSHFQ, CLI and MOV R10, RSP.
    Case("memory frame by frame", b"\xf4", ("0", "0", "--memory"), once=("\nframe 1 9cfa4989e20f20c0",)),
    Case("eight bytes of memory", b"\xf4", ("0", "0", "--memory", "1000", "8"), whole=OPENING
         + "mem 0000000000001000 9cfa4989e20f20c0\n" + HALT + "end to\nturns 1\n"),
    # 512 frames end at 200000.
    Case("bytes up to the end of memory", b"\xf4", ("0", "0", "--memory", "1fffff", "8"), whole=OPENING
         + "mem 00000000001fffff 00\n" + HALT + "end to\nturns 1\n"),
    Case("bytes behind the end of memory", b"\xf4", ("0", "0", "--memory", "200000", "1"), whole=OPENING
         + "mem 0000000000200000 -\n" + HALT + "end to\nturns 1\n"),
    Case("no bytes of memory", b"\xf4", ("0", "0", "--memory", "0", "0"), whole=OPENING
         + "mem 0000000000000000 -\n" + HALT + "end to\nturns 1\n"),
    Case("nothing is kept at first", b"\xf4", ("0", "0", "--translations"), whole=OPENING
         + "kept\n" + HALT + "end to\nturns 1\n"),
    Case("a translation and an upper entry that are kept", bytes.fromhex("909090f4"), ("2", "1", "--translations"),
         "1 keep 4 ffffffff80000000\n", head="state turn 2 outer cpl 0 rip ffffffff80000002 flags",
         tail="\nkept; fill ffffffff80000000 frame 67 r-x-; keep 4 ffffff8000000000 frame 6 rwxu\nend to\nturns 2\n"),
    *(Case(f"{word} for bytes of memory", b"\xf4", ("--memory", *words), status=2, whole="") for word, words in (
        ("one word", ("1000",)), ("no address", ("x", "1")), ("a leading zero", ("1000", "01")), ("a sign", ("1000", "+1")))),
    Case("a second address out of form", b"\xf4", ("--until", "0", "--until", "x"), status=2, whole=""),
    Case("a protected encoding, as a run says it", bytes.fromhex("0f30"), status=1,
         whole="protected ffffffff80000000 0f30\n"),
    Case("a plan out of form, as a run says it", b"\xf4", plan="\n", status=6, whole="plan line 1\n"),
    Case("steps out of form, as a run says it", b"\xf4", steps="0100", status=2, head="usage: nkrun scan IMAGE"),
    *(Case(f"{word} is no number of turns", b"\xf4", words, status=2, whole="") for word, words in (
        ("a sign", ("+1",)), ("a leading zero", ("00",)), ("one more than the most turns", ("4294967297",)),
        ("eleven digits", ("10000000000",)), ("an empty word", ("",)), ("a letter behind FROM", ("0", "x")))),
    Case("the most turns", b"\xf4", ("4294967296",), head="state turn 1 outer"),
    Case("a file that takes ten bytes", b"\xf4", room=10, status=4, whole="state turn"),
    Case("the addresses at which instructions began, each once, those of the gates not", CALLS, words=("--ran",),
         whole="ffffffff80000000\nffffffff80000002\nffffffff8000000c\nffffffff8000000e\n"),
    Case("an address that runs again and again has one line, in as many turns as there may be", LOOP, words=("--ran",),
         steps="7", whole="ffffffff80000000\nffffffff80000001\n"),
    Case("an instruction that faults began", ABSENT, words=("--ran",), steps="1", whole="ffffffff80000000\n"),
    Case("no turn, no address", PLAIN, words=("--ran",), steps="0", whole=""),
    Case("addresses are cut where their file takes no more", PLAIN, words=("--ran",), room=20, status=4,
         whole="ffffffff80000000\nfff"),
    Case("addresses aren't shown beside steps", PLAIN, words=("1", "--ran"), status=2, whole=""),
]
