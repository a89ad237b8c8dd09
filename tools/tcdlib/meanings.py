"""What each printed line of tcd means and what people change, as explain.py and view.py say it.

Each table is keyed by the number or the word of the printed line. tests/unit compares the keys
with the printed forms of docs/formats.md; docs/errors.md says more, with an example of each.
"""
import collections
import re

#: what a line means, and what people change (None if the meaning says it)
Meaning = collections.namedtuple("Meaning", "means change", defaults=(None,))

#: `refused K<rule> ..`, by the rule
RULES = {
    "1": Meaning(
        "the certificate belongs to another executable or plan: its start is missing, or it "
        "promises too little there",
        "make the certificate again; one of `taskcert` is for `tasks`",
    ),
    "2": Meaning(
        "the certificate holds a value that this plan doesn't have, or a frame without a point "
        "at its entry",
        "make the certificate again",
    ),
    "3": Meaning(
        "execution reaches bytes that aren't code: no instruction of the table, no bytes in the "
        "executable, outside of rom, or at an odd address",
        "end the path with `j`, `ret` or `rfe`; put the section into rom; use an instruction of "
        "the table",
    ),
    "4": Meaning(
        "the certificate doesn't cover where this instruction goes on: it is of an older "
        "executable or plan",
        "make the certificate again; one of `cellcert` is for `cells`",
    ),
    "5": Meaning(
        "a call or a jump through a register whose targets aren't all known",
        "keep the table in rom and bound its index (`and`, a branch, the bounds of a device that "
        "is loaded as a whole word), to at most 128 elements",
    ),
    "6": Meaning(
        "`ret` without a call to return from, or with a lower context still saved",
        "end handlers with `rfe`; restore what `svlcx` or `bisr` saved before `ret`; if this "
        "function isn't at fault, the code above it fell into it: end that with a jump",
    ),
    "7": Meaning(
        "`rfe` where nothing was interrupted, or with a lower context still saved, or after the "
        "handler changed D0 to D7 or A2 to A7 without restoring them",
        "begin the handler with `svlcx` or `bisr` and end it with `rslcx`, `rfe`; or use D8 to "
        "D15 and A12 to A15 only",
    ),
    "8": Meaning(
        "more lower contexts restored than saved, or more than 8 saved at once, or two paths "
        "meet with different numbers of them",
        "pair `svlcx` or `bisr` with `rslcx` on each path",
    ),
    "9": Meaning(
        "a store that may lie outside of ram and devices",
        "build the address with `movh.a` and `lea.l`; bound the index; make the ram range as "
        "large as it is; if it is a register of a peripheral, list it in `devices`",
    ),
    "10": Meaning(
        "an access that may be misaligned, and the plan doesn't state the trap `aln`",
        "align it, or add `aln` to `traps` and write a handler",
    ),
    "11": Meaning(
        "an interrupt may come here, and the certificate doesn't cover it",
        "make the certificate again",
    ),
    "12": Meaning(
        "`syscall`, and the plan doesn't state the trap `sys`",
        "add `sys` to `traps` and place a handler at `btv | C0`",
    ),
    "13": Meaning(
        "the instruction writes a core register, or A0, A1, A8, A9 or A11",
        "do it in the start-up code, before the plan's start state; or use another register",
    ),
    "14": Meaning(
        "the areas don't suffice",
        "take the recursion out, keep `bisr` at or above the handler's own priority, or make more "
        "areas",
    ),
    "15": Meaning(
        "more than 2,048 kinds of frames or 65,536 points",
        "split the image; let fewer priorities share code",
    ),
    "16": Meaning(
        "a store may write a part of a cell, or a number outside of the cell's bounds",
        "compare or mask the number before it is stored",
    ),
    "17": Meaning(
        "a load that may read a save area or the switch routine, `mfcr` of PCXI, FCX or LCX, "
        "`bisr` in a task itself, or a way into the switch routine other than a call outside of "
        "handlers",
        "bound the address of the load; leave `bisr` to handlers and `mfcr` of these registers to "
        "the routine",
    ),
}

FELL_IN = "if this code isn't at fault, the code above it fell into it: end that with a jump"
NO_CALL = Meaning(
    "`ret` in a handler, which was entered by no call",
    f"end handlers with `rfe`; {FELL_IN}",
)
NO_INTERRUPT = Meaning(
    "`rfe` in code that no interrupt and no trap has entered",
    f"end a function that is called with `ret`, `rfe` is for handlers; {FELL_IN}",
)
NOT_RESTORED = Meaning(
    "`rfe` with a lower context still saved, or after the handler changed D0 to D7 or A2 to A7 "
    "without restoring them",
    "begin the handler with `svlcx` or `bisr` and end it with `rslcx`, `rfe`; or use D8 to D15 "
    "and A12 to A15 only",
)
#: what rules 6 and 7 mean by the kind of frame
BY_FRAME = {
    ("6", "start"): Meaning(
        "`ret` in the background, which nothing has called",
        f"end the background with a jump; {FELL_IN}",
    ),
    ("6", "call"): Meaning(
        "`ret` with a lower context still saved",
        "write `rslcx` for each `svlcx` and `bisr` before `ret`, on each path",
    ),
    ("6", "irq"): NO_CALL,
    ("6", "sys"): NO_CALL,
    ("6", "aln"): NO_CALL,
    ("7", "start"): NO_INTERRUPT,
    ("7", "call"): NO_INTERRUPT,
    ("7", "irq"): NOT_RESTORED,
    ("7", "aln"): NOT_RESTORED,
    ("7", "sys"): Meaning(
        "`rfe` with a lower context still saved",
        "write `rslcx` for each `svlcx` and `bisr` before `rfe`, on each path",
    ),
}

#: what rule 3 means at the entry of a frame, by the frame's kind
NO_CODE_AT_ENTRY = {
    "call": Meaning(
        "something calls this address, and no code is there",
        "bound the index of the table that the `calli` reads, and fill each of its entries; place "
        "the section that is called",
    ),
    "irq": Meaning(
        "the plan states this interrupt, and no code is at its vector",
        "place a vector at this address, or take the priority out of `irqs` if nothing raises it",
    ),
    "sys": Meaning(
        "the plan states the trap `sys`, and no code is at its vector",
        "place a handler at this address, or take `sys` out of `traps`",
    ),
    "aln": Meaning(
        "the plan states the trap `aln`, and no code is at its vector",
        "place a handler at this address, or take `aln` out of `traps`",
    ),
}

#: what rule 3 means behind a `ji` that may take such a word
NO_CODE_AT_JUMP = Meaning(
    "a jump takes a word that is no code",
    "bound the index of the table that the `ji` reads, and let each of its words be the address of "
    "code in rom",
)

#: the causes of K14
NO_AREAS = {
    "areas": Meaning(
        "the start needs more areas than there are without the reserve",
        "raise `csa.areas` and change the start-up code with it; or call less deeply: "
        "tools/lower.py says which change lowers the number, and to what",
    ),
    "recursion": Meaning(
        "this frame can be entered from itself, so no number of areas suffices",
        "take the recursion out: no function, service or handler may lead back to itself",
    ),
    "certificate": Meaning(
        "the certificate states fewer areas than this frame needs", "make the certificate again"
    ),
    "interrupt": Meaning(
        "an interrupt here leads back to this frame, so no number of areas suffices",
        "write `bisr` with the handler's own priority or a higher one; look at each handler of "
        "the loop of frames",
    ),
}

#: `bad source RULE at FILE LINE`
SOURCES = {
    "0": Meaning("the source is longer than 16,777,216 bytes"),
    "1": Meaning(
        "a character that no line may have, no name at the beginning, or more than 64 words and "
        "signs",
        "write registers without `%`; begin comments with `#`, not with `;` or `//`; end lines "
        "without a carriage return",
    ),
    "2": Meaning(
        "no such instruction or directive",
        "write it with instructions of the table (docs/instructions.md lists them); there are no "
        "macros, no `.text`, `.align` or `.equ`",
    ),
    "3": Meaning(
        "the operands have another form",
        "docs/instructions.md lists the operands of each one; write numbers without `#`, which "
        "begins a comment",
    ),
    "4": Meaning(
        "no such register, or a register of the wrong kind",
        "registers are lower case: d0 to d15 and a0 to a15",
    ),
    "5": Meaning(
        "a number that doesn't fit its field",
        "take the instruction with the wider field (`.l`, or `movh` with `addi`), or split the "
        "number",
    ),
    "6": Meaning("an odd distance", "jump to an even address"),
    "7": Meaning("a label that exists already", "give one of the two another name"),
    "8": Meaning("a label, an instruction or data before any `.section`", "begin with `.section`"),
    "9": Meaning(
        "not a name",
        "a name has letters, digits, `_`, `.` and `$`, at most 64, and doesn't begin with a digit",
    ),
    "10": Meaning(
        "a label where a number is needed, or a 16-bit jump to a label of another section",
        "write `hi:` and `lo:` for addresses, `lo:` in `addi`, `lea.l` and the other `.l` "
        "instructions alone; jump to another section with the 32-bit instruction",
    ),
    "11": Meaning("a 16-bit jump that is too far", "take the 32-bit instruction"),
    "12": Meaning("a post-increment whose base and value are one register", "use another register"),
    "13": Meaning(
        "more than 64 sections, 65,535 symbols or relocations, or 16,777,216 bytes",
        "split the source",
    ),
    "14": Meaning(
        "`.global` of a name that this source never defines", "define it, or drop the line"
    ),
}

CARRIAGE_RETURN = Meaning(
    "the line ends with a carriage return", r"end lines with a line feed alone: `tr -d '\r'`"
)
#: a fault at the front of a text
MARK = Meaning(
    "the file begins with a byte order mark (BOM)", "save it as UTF-8 without a byte order mark"
)
#: `bad source 1`, by what is seen in the line
SEEN = {
    "\r": CARRIAGE_RETURN,
    "%": Meaning("`%` in a line", "write registers without `%`"),
    ";": Meaning("`;` in a line", "begin comments with `#`"),
    "//": Meaning("`//` in a line", "begin comments with `#`"),
}
#: what a line of a source may have outside of comments
SOURCE_CHARACTERS = re.compile(r"[A-Za-z0-9_.$:,+\[\]\- \t]*")

#: `bad link N ..`
LINKING = {
    "1": Meaning("the name is global in two objects", "make one of them local or rename it"),
    "2": Meaning(
        "the name is used, and no object defines it as global",
        "add `.global` in the source that defines it; name its object among the arguments",
    ),
    "3": Meaning("the section has no place in the layout", "add a line `place`"),
    "4": Meaning(
        "the section doesn't fit its place",
        "make the place longer; call the function from its vector if it is a vector of 32 bytes",
    ),
    "5": Meaning(
        "an address or a distance that its instruction can't hold",
        "place the two closer; for `calla` and `ja` write `call` and `j`; jump to an even address",
    ),
    "6": Meaning("the layout's entry isn't a global label", "add `.global` for it"),
}
#: the last number of `bad link 5`
LINK_FAULTS = {
    "1": "the distance or the address is odd",
    "2": "the target is too far away",
    "3": "`calla` and `ja` can't reach the address",
}

#: `bad plan N ..`
PLANS = {
    "0": Meaning("the plan is longer than 16,777,216 bytes"),
    "1": Meaning(
        "not a JSON object",
        "look for a comma too many, a comment, or `0x..` without quotes",
    ),
    "2": Meaning("the key is missing or misspelt", "add it, even if its list is empty"),
    "3": Meaning(
        "the object has a key that isn't known",
        "remove it, or spell it `core`; `root` is the whole object",
    ),
    "4": Meaning(
        "the key has a value of another form or outside of its bounds",
        'write hexadecimal numbers as texts, as "0x80000000"; ranges at multiples of 4',
    ),
    "5": Meaning("more than 16 ranges of a kind, 32 interrupts, or 4,194,304 bytes of rom or ram"),
    "6": Meaning(
        "the save areas aren't possible",
        "`reserve` is 1 to `areas`, `areas` 1 to 4,096, `at` a multiple of 64 and not 0, and all "
        "areas are in the first 4 MB of a segment of 256 MB",
    ),
    "7": Meaning("`biv` or `btv` is odd", "write the address of the vector table"),
    "8": Meaning("two ranges share bytes", "make one of them shorter or move it"),
}

#: `bad elf N ..`
EXECUTABLES = {
    "0": Meaning("the executable is longer than 16,777,216 bytes"),
    "1": Meaning("the file is shorter than an ELF header"),
    "2": Meaning("not a little-endian ELF32 file"),
    "3": Meaning("not for TriCore (machine 44)", "name the file of this toolchain"),
    "4": Meaning("not an executable", "link it"),
    "5": Meaning(
        "a program header hasn't 32 bytes or is cut, or its bytes pass the file, its `p_memsz` or "
        "2^32"
    ),
    "6": Meaning("more than 64 segments, or more than 16,777,216 bytes"),
    "7": Meaning(
        "two segments share addresses",
        "if all load addresses (p_paddr) are 0, link with load addresses",
    ),
}

#: `bad cert KIND ..` and `bad object KIND ..`
BINARIES = {
    "0": Meaning("the file is longer than such a file may be"),
    "1": Meaning("the file is cut off", "make it again"),
    "2": Meaning("not such a file, or one of another version", "make it again"),
    "3": Meaning("its parts aren't in ascending order", "make it again"),
    "4": Meaning("a value of another form", "make it again"),
    "5": Meaning("a number above its limit", "make it again"),
    "6": Meaning("bytes after the end", "make it again"),
}

#: `bad script N at LINE`
SCRIPTS = {
    "0": Meaning("the script is longer than 16,777,216 bytes"),
    "1": Meaning(
        "not a line of a script",
        "write `step N` (1 to 100,000), `irq P`, `in DEVICE LO HI`, `aln 0` or `aln 1`: decimal "
        "numbers, one blank between words, no comment, no carriage return",
    ),
    "2": Meaning("the plan has no such interrupt", "add it to `irqs`"),
    "3": Meaning("no such device, or a number outside of its bounds", "devices count from 0"),
    "4": Meaning("more than 100,000 turns"),
}

#: `bad layout N at LINE`
LAYOUTS = {
    "0": Meaning("the layout is longer than 16,777,216 bytes"),
    "1": Meaning(
        "not a line of a layout",
        "write `entry NAME` and `place SECTION AT MOST` with eight upper-case hex digits, AT a "
        "multiple of 4",
    ),
    "2": Meaning("a second entry, or a section that is placed already"),
    "3": Meaning("more than 64 places"),
    "4": Meaning("the place shares bytes with an earlier one", "move it or make one shorter"),
}

#: `bad layout 1` at the line after the last
NO_ENTRY = Meaning("the layout has no line `entry NAME`", "add it, with the name of a global label")

#: `bad cells N at LINE`
CELLS = {
    "0": Meaning("the file of cells is longer than 16,777,216 bytes"),
    "1": Meaning(
        "not a line of cells",
        "write `cell AT LO HI` with eight upper-case hex digits each, AT a multiple of 4, HI not "
        "below LO",
    ),
    "2": Meaning("the cell's word isn't in ram"),
    "3": Meaning("an earlier line has the same word"),
    "4": Meaning("with this cell there are more than 16 ranges of ram or devices"),
}

#: `bad tasks N ..`
TASKS = {
    "0": Meaning("the file of tasks is longer than 16,777,216 bytes"),
    "1": Meaning(
        "not a line of tasks, an odd address of the routine, or a block that isn't at a multiple "
        "of 4",
        "write `switch Y B` first and then `task ENTRY SP`, with eight upper-case hex digits each",
    ),
    "2": Meaning("an eighth task"),
    "3": Meaning("fewer than two tasks"),
    "4": Meaning("the block of the switch routine isn't in ram"),
    "5": Meaning(
        "too many devices with what is left of ram beside the block",
        "put the block at an end of its range",
    ),
    "6": Meaning("the plan starts on the interrupt stack"),
    "7": Meaning(
        "the number of certificates isn't the number of tasks",
        "give one certificate for each task, in their order",
    ),
}

#: `refused boot N`
BOOTS = {
    "1": Meaning(
        "interrupts are on at the start (`start.ie`)",
        "let the code after the entry turn them on",
    ),
    "2": Meaning("the address of the sequence or the entry is odd"),
    "3": Meaning(
        "the 224 bytes of the sequence don't lie in one rom range, held by segments",
        "give the address where it was placed; link its source",
    ),
    "4": Meaning(
        "this byte isn't that of the sequence: the plan or the entry changed since it was written",
        "write it again with `bootgen`",
    ),
}

#: `refused switch ..` and `refused sum ..`
TASK_REFUSALS = {
    "switch": Meaning(
        "this byte isn't that of the switch routine, or isn't in ROM",
        "look at the address, the block and the number of tasks in the file of tasks",
    ),
    "sum": Meaning(
        "the tasks together may take more areas than there are",
        "raise `csa.areas`, call less deeply, or leave interrupts on in one task alone",
    ),
}

#: `.. dead CAUSE at PC` of `run`
DEATHS = {
    "fcd": Meaning(
        "an entry or a save took the first area of the reserve: the free list is used up "
        "(rules 9, 13, 14)"
    ),
    "fcu": Meaning("an entry found no free area at all (rules 9, 13)"),
    "csu": Meaning("a return or `rslcx` with nothing left to restore (rules 6 to 9, 13)"),
    "ctyp": Meaning("a return found a lower context, or `rslcx` an upper one (rules 6 to 9, 13)"),
    "nocode": Meaning("there is no code here: no memory, or an odd address (rules 3, 5, 9)"),
    "notlisted": Meaning("the bytes here are no instruction of the table (rules 3, 9)"),
    "noarea": Meaning("FCX or PCXI names an area where there is no memory (rules 9, 13)"),
}

#: the words of each command after its name
COMMANDS = {
    "asm": "SOURCE OBJECT (one source)",
    "link": "LAYOUT ELF OBJECT..",
    "dis": "ELF",
    "run": "ELF PLAN SCRIPT",
    "cert": "ELF PLAN CERT",
    "check": "ELF PLAN CERT",
    "report": "ELF PLAN CERT",
    "cfg": "ELF PLAN",
    "ship": "PLAN LAYOUT ELF CERT SOURCE..",
    "bootgen": "PLAN ENTRY ADDRESS SOURCE",
    "boot": "ELF PLAN CERT ADDRESS",
    "cellcert": "ELF PLAN CELLS CERT",
    "cells": "ELF PLAN CELLS CERT",
    "taskcert": "ELF PLAN TASKS CERT..",
    "tasks": "ELF PLAN TASKS CERT..",
    "gen": "NUMBER (1 to 500)",
}

#: the words of a command that name files which it reads
READ = ("SOURCE", "LAYOUT", "ELF", "PLAN", "SCRIPT", "CELLS", "TASKS", "CERT", "OBJECT")
#: and those that name files which it writes
WRITTEN = {
    "asm": ("OBJECT",),
    "link": ("ELF",),
    "cert": ("CERT",),
    "ship": ("ELF", "CERT"),
    "bootgen": ("SOURCE",),
    "cellcert": ("CERT",),
    "taskcert": ("CERT",),
}

#: statuses that come without a line
STATUSES = {
    3: Meaning("a file can't be read or written, or the output was closed"),
    4: Meaning("out of memory"),
    5: Meaning("not the words of a command"),
}
