#!/usr/bin/env python3
"""Compares the reference machine with QEMU's, one instruction at a time.

    python3 bench/machines/conform.py [--each N] [--sequences N] [--alone N] [--seed S] [--row NAME]

It needs rt and qemu-system-tricore (Debian: qemu-system-misc).

Three machines do each step from the same state: the proved crate `tc_machine`, in a small program
that this script writes and builds in a temporary directory; QEMU's TriCore board, over its gdb
stub; and `tools/tcdlib/machine.py`. Compared after each step are D0 to D15, A0 to A15, PSW, PC, PCXI, FCX,
LCX, ICR, ISP, BTV and BIV, whether the machine died and of what, and each word of a window of
memory with 16 save areas. The whole memory of the board is compared at the end.

- Rows: each row of the instruction table, from random states.
- Sequences: calls, returns, `svlcx`, `rslcx`, `bisr` and others on a free list that is linked once.
  Each step goes on from the state that QEMU's step before left.
- Alone: what QEMU doesn't have, with the other two machines: interrupts, traps of misaligned
  accesses, bytes that are no instruction, both cores.

The machine takes any status flags: its event has the flags that QEMU shows. If QEMU is known to do
something else, `Expected` or `gone_on` says what and why; such steps are counted. The exit status
is 1 if a step differs in any other way.
"""

import argparse
import collections
import pathlib
import random
import shutil
import socket
import struct
import subprocess
import sys
import tempfile
import time

TOP = pathlib.Path(__file__).resolve().parents[2]
sys.path.insert(0, str(TOP / "tools"))
from tcdlib import formats as readers
from tcdlib.machine import DECODER, LAYOUTS, Event, Machine, address_of, link_of

WORD = 0xFFFFFFFF
# The board's memory. F0000000 to F0000003 are a device that ends the emulator.
BOARD = [
    (0x80000000, 0x200000), (0xA1000000, 0x400000), (0xD0000000, 0xC000),
    (0xD4000000, 0xC000), (0xF0050000, 0x4000), (0xF0060000, 0x8000),
]  # fmt: skip
DEVICE = 0xF0000000
# The window that is compared after each step: save areas, and data after them.
WINDOW, AREAS, SIZE = 0xD0000000, 16, 2048
DATA = WINDOW + 64 * AREAS
CODE, CODE_END = 0x80001000, 0x80100000
# Zeros, which are nop16: a step of QEMU that traps does the handler's first instruction as well.
VECTORS = 0x80180000
# Code that moves D0 to D15 to A0 to A15, and a breakpoint after it: the stub can't write A0 to A15.
COPIES = 0x80000100
COPIED = COPIES + 32
# The registers in the stub's order. SYSCON, PMUCON0 and DMUCON follow, which the machine lacks.
NAMES = [f"d{i}" for i in range(16)] + [f"a{i}" for i in range(16)]
NAMES += ["lcx", "fcx", "pcxi", "psw", "pc", "icr", "isp", "btv", "biv"]
LCX, FCX, PCXI, PSW, PC, ICR, ISP, BTV, BIV = range(32, 41)
A = 16
ENDS = ["", "fcd", "fcu", "csu", "ctyp", "notlisted", "nocode", "noarea"]
# Trap identification numbers of class 3.
TINS = {"fcd": 1, "fcu": 4, "csu": 5, "ctyp": 6}
CORE_REGISTERS = [0xFE00, 0xFE04, 0xFE20, 0xFE24, 0xFE28, 0xFE2C, 0xFE38, 0xFE3C]
UL = 1 << LAYOUTS["1.3"][2]
# Call depth counting is off: CDC is 7F and CDE is set.
COUNTING_OFF = 0xFF
CRATES = (
    "tcd_base", "elf_image", "tc_isa", "tc_encode", "csa_chain", "tc_mem", "tcd_plan", "tc_machine",
)  # fmt: skip
SAVES, UPPER, LOWER = ("call", "calla", "calli", "svlcx", "bisr"), ("ret", "rfe"), ("rslcx",)
ROWS_OF = {
    names: [row for row in readers.ROWS if row.name.replace("16", "", 1) in names]
    for names in (SAVES, UPPER, LOWER)
}
PROGRAM = r"""
// Does single events. A request on standard input is 44 words and puts: D0 to D15, A0 to A15, LCX,
// FCX, PCXI, PSW, PC, ICR, ISP, BTV, BIV, the event's input, its rest, the count of puts; a put is
// an address and a word. The rest is the status in bits 7:0, the interrupt in 15:8, in 16 whether
// misaligned accesses trap, in 17 whether the core is 1.6. The answer is the 41 registers after the
// event, the end (0 for a machine that runs), the count of words of the window that changed, and
// these, each after its address. After the last request all words of memory that aren't 0 follow,
// each after its address.
#![tactic(auto)]

use std::alloc::Global;
use std::io;
use std::io::{Read, Write};
use tc_machine::{Cause, End, Event, Machine};
use tc_mem::Mem;
use tcd_base::{Core, Range};

const WINDOW: u32 = 0xD000_0000;

/// The memory of the board.
const BOARD: [Range; 6] = [
    Range { at: 0x8000_0000, len: 0x20_0000 },
    Range { at: 0xA100_0000, len: 0x40_0000 },
    Range { at: 0xD000_0000, len: 0xC000 },
    Range { at: 0xD400_0000, len: 0xC000 },
    Range { at: 0xF005_0000, len: 0x4000 },
    Range { at: 0xF006_0000, len: 0x8000 },
];

fn word_of(bytes: &[u8], i: usize) -> u32 {
    if i > 43 || bytes.len() < 4 * i + 4 {
        return 0;
    }
    u32::from_le_bytes([bytes[4 * i], bytes[4 * i + 1], bytes[4 * i + 2], bytes[4 * i + 3]])
}

fn set_registers(m: &mut Machine, bytes: &[u8]) {
    for i in 0..16 {
        m.d[i] = word_of(bytes, i);
        m.a[i] = word_of(bytes, 16 + i);
    }
    m.lcx = word_of(bytes, 32);
    m.fcx = word_of(bytes, 33);
    m.pcxi = word_of(bytes, 34);
    m.psw = word_of(bytes, 35);
    m.pc = word_of(bytes, 36);
    let icr = word_of(bytes, 37);
    m.ccpn = (icr % 256) as u8;
    m.ie = icr / 256 % 2 == 1;
    m.isp = word_of(bytes, 38);
    m.btv = word_of(bytes, 39);
    m.biv = word_of(bytes, 40);
    m.end = End::Running;
}

fn put(out: &mut Vec<u8>, word: u32) -> io::Result<()> {
    out.extend_from_slice(&word.to_le_bytes())?;
    Ok(())
}

fn end_code(end: &End) -> u32 {
    match end {
        End::Running => 0,
        End::Dead(Cause::Fcd) => 1,
        End::Dead(Cause::Fcu) => 2,
        End::Dead(Cause::Csu) => 3,
        End::Dead(Cause::Ctyp) => 4,
        End::Dead(Cause::NotListed) => 5,
        End::Dead(Cause::NoCode) => 6,
        End::Dead(Cause::NoArea) => 7,
    }
}

fn put_registers(out: &mut Vec<u8>, m: &Machine) -> io::Result<()> {
    for i in 0..16 {
        put(out, m.d[i])?;
    }
    for i in 0..16 {
        put(out, m.a[i])?;
    }
    put(out, m.lcx)?;
    put(out, m.fcx)?;
    put(out, m.pcxi)?;
    put(out, m.psw)?;
    put(out, m.pc)?;
    put(out, u32::from(m.ccpn) + if m.ie { 256 } else { 0 })?;
    put(out, m.isp)?;
    put(out, m.btv)?;
    put(out, m.biv)?;
    put(out, end_code(&m.end))
}

// The words of the window that changed, each after its address, and their number.
fn changes(alloc: Global, mem: &Mem, seen: &mut [u32; 512]) -> io::Result<(Vec<u8>, u32)> {
    let mut out = Vec::new(alloc);
    let mut count: u32 = 0;
    let mut at = WINDOW;
    for held in seen.iter_mut() {
        let word = mem.word(at).unwrap_or(0);
        if word != *held {
            *held = word;
            count = count.wrapping_add(1);
            put(&mut out, at)?;
            put(&mut out, word)?;
        }
        at = at.wrapping_add(4);
    }
    Ok((out, count))
}

fn read_puts<R: Read>(input: &mut R, mem: &mut Mem, count: u32) -> io::Result<()> {
    let mut pair = [0u8; 8];
    for _ in 0..count {
        input.read_exact(&mut pair)?;
        let mut at = word_of(&pair, 0);
        for byte in [pair[4], pair[5], pair[6], pair[7]] {
            mem.set(at, byte);
            at = at.wrapping_add(1);
        }
    }
    Ok(())
}

fn dump<W: Write>(alloc: Global, output: &mut W, mem: &Mem) -> io::Result<()> {
    for range in BOARD {
        let mut out = Vec::new(alloc);
        for i in 0..range.len / 4 {
            let at = range.at.wrapping_add(i.wrapping_mul(4));
            let word = mem.word(at).unwrap_or(0);
            if word != 0 {
                put(&mut out, at)?;
                put(&mut out, word)?;
            }
        }
        output.write_all(out.as_slice())?;
    }
    Ok(())
}

fn main(rt: HostRuntime) -> io::Result<()> {
    let mut input = rt.stdin();
    let mut output = rt.stdout();
    let Ok(mem) = Mem::of(rt.alloc(), &BOARD) else {
        return Ok(());
    };
    let mut m = Machine {
        pc: 0,
        d: [0; 16],
        a: [0; 16],
        psw: 0,
        pcxi: 0,
        fcx: 0,
        lcx: 0,
        ccpn: 0,
        ie: false,
        biv: 0,
        btv: 0,
        isp: 0,
        mem,
        end: End::Running,
        core: Core::V13,
    };
    let mut seen = [0u32; 512];
    let mut request = [0u8; 176];
    for _ in 0..u64::MAX {
        if input.read_exact(&mut request).is_err() {
            return dump(rt.alloc(), &mut output, &m.mem);
        }
        set_registers(&mut m, &request);
        read_puts(&mut input, &mut m.mem, word_of(&request, 43))?;
        changes(rt.alloc(), &m.mem, &mut seen)?;
        let rest = word_of(&request, 42);
        m.core = if rest / 0x2_0000 % 2 == 1 { Core::V16 } else { Core::V13 };
        m.step(&Event {
            irq: (rest / 0x100 % 256) as u8,
            input: word_of(&request, 41),
            status: (rest % 256) as u8,
            aln: rest / 0x1_0000 % 2 == 1,
        });
        let (changed, count) = changes(rt.alloc(), &m.mem, &mut seen)?;
        let mut answer = Vec::new(rt.alloc());
        put_registers(&mut answer, &m)?;
        put(&mut answer, count)?;
        output.write_all(answer.as_slice())?;
        output.write_all(changed.as_slice())?;
    }
    Ok(())
}
"""


class Stub:
    """QEMU over its gdb stub."""

    def __init__(self, folder):
        path, self.held = str(folder / "stub"), b""
        words = ["qemu-system-tricore", "-M", "tricore_testboard", "-display", "none"]
        words += ["-serial", "none", "-monitor", "none"]
        words += ["-S", "-gdb", f"unix:path={path},server=on,wait=off"]
        self.process = subprocess.Popen(words, stdin=subprocess.DEVNULL)
        self.socket = socket.socket(socket.AF_UNIX)
        for _ in range(200):
            try:
                self.socket.connect(path)
                break
            except OSError:
                time.sleep(0.05)
        self.asked("QStartNoAckMode")
        self.socket.sendall(b"+")
        self.asked(f"Z0,{COPIED:x},4")

    def asked(self, text):
        """The answer to a packet."""
        data = text.encode()
        self.socket.sendall(b"$%s#%02x" % (data, sum(data) & 255))
        while True:
            begin = self.held.find(b"$")
            end = self.held.find(b"#", begin) if begin >= 0 else -1
            if 0 <= end <= len(self.held) - 3:
                answer, self.held = self.held[begin + 1 : end], self.held[end + 3 :]
                return answer.decode()
            got = self.socket.recv(65536)
            if not got:
                raise EOFError(f"the emulator ended with {self.process.wait()}")
            self.held += got

    def registers(self):
        return list(struct.unpack("<44I", bytes.fromhex(self.asked("g"))))[:41]

    def put_registers(self, registers):
        """All registers, A0 to A15 by code: the stub puts what it gets for them into D0 to D15."""
        self.put_others([*registers[A:32], *registers[A:32], 0, 0, 0, 0xB80, COPIES, 0, 0, 0, 0])
        self.asked("c")
        self.put_others(registers)

    def put_others(self, registers):
        """All registers but A0 to A15."""
        words = [*[0] * 16, *registers[:16], *registers[32:], 0, 0, 0]
        self.asked("G" + struct.pack("<44I", *words).hex())

    def put(self, at, data):
        for i in range(0, len(data), 1024):
            part = data[i : i + 1024]
            self.asked(f"M{at + i:x},{len(part):x}:{part.hex()}")

    def memory(self, at, size):
        parts = [(at + i, min(2048, size - i)) for i in range(0, size, 2048)]
        return b"".join(bytes.fromhex(self.asked(f"m{part:x},{count:x}")) for part, count in parts)

    def step(self):
        self.asked("s")
        return self.registers()

    def close(self):
        self.process.kill()
        self.process.wait()


class Steps:
    """The proved crate's machine in the small program. `window` is what its memory holds there."""

    def __init__(self, program):
        self.process = subprocess.Popen([program], stdin=subprocess.PIPE, stdout=subprocess.PIPE)
        self.window, self.puts = bytearray(SIZE), []

    def put(self, at, word):
        self.puts.append((at, word))
        if WINDOW <= at < WINDOW + SIZE:
            self.window[at - WINDOW : at - WINDOW + 4] = word.to_bytes(4, "little")

    def step(self, registers, event, core="1.3"):
        puts, self.puts = self.puts, []
        rest = event.status | event.irq << 8 | event.aln << 16 | (core == "1.6") << 17
        request = [*registers, event.input, rest, len(puts), *(w for put in puts for w in put)]
        self.process.stdin.write(struct.pack(f"<{len(request)}I", *request))
        self.process.stdin.flush()
        answer = struct.unpack("<43I", self.process.stdout.read(172))
        changes = struct.unpack(f"<{2 * answer[42]}I", self.process.stdout.read(8 * answer[42]))
        for at, word in zip(changes[::2], changes[1::2]):
            self.window[at - WINDOW : at - WINDOW + 4] = word.to_bytes(4, "little")
        return list(answer[:41]), ENDS[answer[41]]

    def close(self):
        """The whole memory, as words that aren't 0 by their addresses."""
        self.process.stdin.close()
        rest = self.process.stdout.read()
        self.process.wait()
        words = struct.unpack(f"<{len(rest) // 4}I", rest)
        return dict(zip(words[::2], words[1::2]))


class Python:
    """The machine in Python."""

    def __init__(self):
        ranges = [{"at": at, "len": size} for at, size in BOARD]
        self.m = Machine({"csa": {"at": 0, "areas": 0}, "rom": [], "ram": ranges, "core": "1.3"})

    def window(self):
        return self.m.memory.bytes(WINDOW, SIZE)

    def step(self, registers, event, core="1.3"):
        m = self.m
        m.core = core
        m.d, m.a, m.end = registers[:16], registers[A:32], None
        m.lcx, m.fcx, m.pcxi, m.psw, m.pc, icr, m.isp, m.btv, m.biv = registers[32:41]
        m.ccpn, m.ie = icr & 255, bool(icr & 256)
        m.step(event)
        others = [m.lcx, m.fcx, m.pcxi, m.psw, m.pc, m.ccpn | m.ie << 8, m.isp, m.btv, m.biv]
        return [*m.d, *m.a, *others], m.end or ""


class Expected:
    """What QEMU does, from what the machine does, and the reasons of what differs."""

    def __init__(self, name, operands, before, done):
        self.name, self.operands, self.before, self.reasons = name, operands, before, []
        self.registers, self.end, self.window = list(done[0]), done[1], done[2]
        if not self.end:
            self.bisr()
            self.calli()
            self.vectors()
            self.saved()

    def give(self, number, value, reason):
        if self.registers[number] != value:
            self.registers[number] = value
            self.reasons.append(reason)

    def bisr(self):
        if self.name == "bisr":
            value = self.registers[ICR] | self.before[ICR] & 255
            self.give(ICR, value, "`bisr` ORs its constant into CCPN")

    def calli(self):
        if self.name == "calli" and self.operands[0] == ("a", 11):
            self.give(PC, self.before[PC] + 4, "`calli a11` jumps to the A11 that it has just set")

    def vectors(self):
        number = {0xFE20: BIV, 0xFE24: BTV}.get(self.operands[0][1]) if self.operands else None
        if self.name == "mtcr" and number:
            value = self.before[self.operands[1][1]]
            self.give(number, value, "`mtcr` keeps bit 0 of BIV and BTV")

    def saved(self):
        if self.name in SAVES:
            value = self.registers[PCXI] | self.before[PCXI] & 0x300000
            self.give(PCXI, value, "PCXI keeps bits 21:20 in a save")


class Bench:
    """The three machines, and what was found."""

    def __init__(self, program, seed, stub=None):
        self.draw, self.stub = random.Random(seed), stub
        self.steps, self.python, self.window = Steps(program), Python(), bytearray(SIZE)
        self.found, self.rows_of = collections.Counter(), collections.defaultdict(set)
        self.done = self.wrong = 0
        self.put(COPIES, bytes(byte for n in range(16) for byte in (0x60, n << 4 | n)))

    # Random states

    def number(self):
        """A word, often one at an edge."""
        draw = self.draw
        kind = draw.randrange(8)
        if kind < 3:
            return draw.getrandbits(32)
        if kind == 3:
            return draw.randrange(-40, 40) & WORD
        if kind == 4:
            return ((1 << draw.randrange(32)) + draw.randrange(-1, 2)) & WORD
        return draw.choice([0, 1, WORD, 0x80000000, 0x7FFFFFFF, 0xFFFF8000, 0x7FFF])

    def link(self):
        """A link: mostly of an area of the window, at times 0, or of an area that isn't mapped."""
        kind = self.draw.randrange(20)
        if kind == 0:
            return 0
        if kind == 1:
            return self.draw.choice([1, 0xFFFF, 0xCFFFF, 0xD8000, 0xE1234])
        return link_of(WINDOW) + self.draw.randrange(AREAS)

    def registers(self):
        draw = self.draw
        out = [self.number() for _ in range(41)]
        for _ in range(8):
            out[draw.randrange(32)] = out[draw.randrange(32)]
        out[FCX], out[LCX] = self.link(), self.link()
        if draw.randrange(4) == 0:
            out[LCX] = out[FCX]
        if draw.randrange(4) == 0 and out[FCX]:
            out[FCX] |= draw.getrandbits(12) << 20
        out[PCXI] = draw.getrandbits(12) << 20 | self.link()
        out[PSW] = draw.getrandbits(32) & 0xFEFFFF00 | COUNTING_OFF
        out[BTV] = VECTORS | draw.randrange(0, 0x10000, 2)
        out[PC] = draw.randrange(CODE, CODE_END, 2)
        out[ISP] &= ~7
        return out

    def target(self):
        """Where an access goes: mostly into the data, at times into an area or anywhere."""
        draw = self.draw
        kind = draw.randrange(10)
        if kind < 7:
            return draw.randrange(DATA, WINDOW + SIZE - 3)
        if kind == 7:
            return draw.randrange(WINDOW, DATA)
        if kind == 8:
            return draw.randrange(0xD4000000, 0xD400BFFD)
        return self.number()

    def spelled(self, row):
        """A random word of a row, and its operands."""
        draw, word = self.draw, 0
        while not row.spelled(word):
            word = row.code | draw.getrandbits(8 * row.length) & ~row.mask
            if row.name in ("mfcr", "mtcr") and draw.randrange(8):
                word = word & 0xF0000FFF | draw.choice(CORE_REGISTERS) << 12
            if row.form == "Abs" and draw.randrange(8):
                place = readers.put(13 << 14 | self.target() & 0x7FF, readers.K["Abs"])
                word = row.code | place | word & 0xF00
        return word, DECODER.decode(word.to_bytes(4, "little"))[1]

    # One step

    def put(self, at, data):
        """Bytes into all memories, whole words of them."""
        if self.stub:
            self.stub.put(at, data)
        self.python.m.memory.write(at, data)
        for i in range(0, len(data), 4):
            self.steps.put(at + i, int.from_bytes(data[i : i + 4], "little"))
        if WINDOW <= at < WINDOW + SIZE:
            self.window[at - WINDOW : at - WINDOW + len(data)] = data

    def level(self):
        """Puts into the machines what QEMU's window holds."""
        if self.window != self.python.window():
            self.python.m.memory.write(WINDOW, self.window)
        if self.window != self.steps.window:
            for i in range(0, SIZE, 4):
                word = self.window[i : i + 4]
                if word != self.steps.window[i : i + 4]:
                    self.steps.put(WINDOW + i, int.from_bytes(word, "little"))

    def code(self, pc, word, length):
        """The instruction at pc in all memories."""
        data = word.to_bytes(length, "little")
        at = pc & ~3
        held = self.python.m.memory.bytes(at, 8) or self.python.m.memory.bytes(at, 4)
        if held:
            self.put(at, (held[: pc - at] + data + held[pc - at + length :])[: len(held)])

    def input_of(self, row, operands, before, after):
        """What `mfcr` reads of a register that the machine lacks, and the upper bits of ICR."""
        if row.name == "mfcr":
            return before[ICR] if operands[1][1] == 0xFE2C else after[operands[0][1]]
        return 0

    def compared(self, row, operands, before):
        """One step of all machines from QEMU's registers. Returns QEMU's registers after it."""
        after = self.stub.step()
        window = self.stub.memory(WINDOW, SIZE)
        event = Event(0, self.input_of(row, operands, before, after), after[PSW] >> 24, False)
        label = f"{row.name} {', '.join(row.operands)} ({row.form})"
        done = self.both(label, before, event)
        self.beside(row, label, operands, before, done, after, window)
        self.window[:] = window
        self.level()
        return after

    def both(self, label, before, event, core="1.3"):
        """One step of the two machines that aren't QEMU: registers, end and window of the first."""
        done = (*self.steps.step(before, event, core), bytes(self.steps.window))
        python = (*self.python.step(before, event, core), self.python.window())
        self.done += 1
        if done != python:
            self.tell("tools/tcdlib/machine.py differs", label, before, done, python)
        return done

    def beside(self, row, label, operands, before, done, after, window):
        """Compares what the machine did with what QEMU did, which are registers and the window."""
        name, end = row.name.replace("16", "", 1), done[1]
        seen = ([*after[:ICR], after[ICR] & 511, *after[ICR + 1 :]], "", window)
        trapped = after[15] if after[PC] == (after[BTV] | 3 << 5) + 2 else None
        area = slice(address_of(before[FCX]) - WINDOW, address_of(before[FCX]) - WINDOW + 64)
        if end == "fcd" and window[area] != done[2][area]:
            trapped = None
        if end in TINS and trapped == TINS[end]:
            self.count(f"dies of `{end}`, QEMU traps: class 3, TIN {trapped}", label)
        elif end in ("fcd", "csu", "ctyp") and trapped in self.traps_again(before):
            self.count(f"dies of `{end}`, QEMU traps, and the save for this: TIN {trapped}", label)
        else:
            reasons, done = self.gone_on(name, before, done, after[PSW] >> 24)
            expected = Expected(name, operands, before, done)
            if (expected.registers, expected.end, expected.window) == seen:
                for reason in [*reasons, *expected.reasons] or [""]:
                    self.count(reason, label)
            else:
                done = (expected.registers, expected.end, expected.window)
                self.tell("QEMU differs", label, before, done, seen)

    def traps_again(self, before):
        """The numbers of the context traps that the save of a trap may end in."""
        held = self.word(before[FCX])
        if before[FCX] == 0 or (before[FCX] == before[LCX] and held == 0):
            return {4}
        return {1} if before[FCX] == before[LCX] else set()

    def word(self, link):
        """The link in the area that a word names, before the step."""
        at = address_of(link) - WINDOW
        return int.from_bytes(self.window[at : at + 4], "little") & 0xFFFFF if 0 <= at < SIZE else 0

    def gone_on(self, name, before, done, status):
        """What the machine in Python does without what QEMU lacks, and the reasons: `syscall` is a
        nop; an area that isn't mapped holds zeros; FCX and LCX of one link may differ."""
        if name == "syscall":
            registers = [*before[:PC], before[PC] + 4, before[ICR] & 511, *before[ICR + 1 :]]
            registers[PSW] = status << 24 | before[PSW] & 0xFFFFFF
            return ["`syscall` does nothing"], (registers, "", bytes(self.window))
        if done[1] not in ("fcd", "noarea"):
            return [], done
        registers, memory, reasons = list(before), self.python.m.memory, []
        if done[1] == "noarea":
            reasons.append("an area that isn't mapped: QEMU reads zeros and drops what is written")
        if before[FCX] != before[LCX] and (before[FCX] ^ before[LCX]) & 0xFFFFF == 0:
            registers[LCX] ^= 1
            reasons.append("QEMU compares bits 31:20 of FCX and LCX too")
        areas = {address_of(before[number]) for number in (FCX, PCXI)}
        parts = memory.parts
        zeros = [(at, at + 64, bytearray(64)) for at in areas if memory.get(at) is None]
        memory.parts = parts + zeros
        memory.write(WINDOW, self.window)
        after, end = self.python.step(registers, Event(0, 0, status, False))
        after[LCX] = before[LCX]
        memory.parts = parts
        return reasons, (after, end, self.python.window())

    def count(self, reason, label):
        self.found[reason] += 1
        self.rows_of[reason].add(label)

    def tell(self, what, label, before, ours, theirs):
        """Prints what differs, for the first 40 steps."""
        self.wrong += 1
        if self.wrong > 40:
            return
        code = (self.python.m.memory.bytes(before[PC], 4) or b"").hex()
        print(f"{what}: {label}, bytes {code}, FCX {before[FCX]:08X}, LCX {before[LCX]:08X}")
        print(f"    end {ours[1] or 'none'} and {theirs[1] or 'none'}")
        for i in range(41):
            if ours[0][i] != theirs[0][i]:
                values = f"{ours[0][i]:08X} and {theirs[0][i]:08X}"
                print(f"    {NAMES[i]} was {before[i]:08X}: {values}")
        for i in range(0, SIZE, 4):
            words = [int.from_bytes(held[2][i : i + 4], "little") for held in (ours, theirs)]
            if words[0] != words[1]:
                print(f"    word {WINDOW + i:08X}: {words[0]:08X} and {words[1]:08X}")

    # Rows

    def fill(self):
        """Random words in the window, and links in the areas' first words."""
        words = [self.number() for _ in range(SIZE // 4)]
        for i in range(AREAS):
            words[16 * i] = self.draw.getrandbits(12) << 20 | self.link()
            words[16 * i + 1] |= COUNTING_OFF
        self.put(WINDOW, struct.pack(f"<{SIZE // 4}I", *words))

    def row(self, row, each):
        """So many steps of a row from random states."""
        for n in range(each):
            if n % 50 == 0:
                self.fill()
            word, operands, registers = self.state(row)
            while self.ends_emulator(operands, registers):
                word, operands, registers = self.state(row)
            self.unlooped(registers)
            self.code(registers[PC], word, row.length)
            self.stub.put_registers(registers)
            self.compared(row, operands, registers)

    def state(self, row):
        """A random word of a row, its operands, and registers; an access goes to `target`."""
        word, operands = self.spelled(row)
        registers = self.registers()
        for operand in operands:
            if operand[0] == "m":
                offset = 0 if operand[3] else operand[2]
                registers[A + operand[1]] = (self.target() - offset) & WORD
        return word, operands, registers

    def unlooped(self, registers):
        """Another LCX if the trap of the last area would find this area again, without end."""
        link = registers[FCX] & 0xFFFFF
        if registers[FCX] == registers[LCX] and self.word(link) in (0, link):
            registers[LCX] ^= 1

    def accessed(self, operands, registers):
        """The address of an access, or None."""
        for operand in operands:
            if operand[0] == "u":
                return operand[1]
            if operand[0] == "m":
                return (registers[A + operand[1]] + (0 if operand[3] else operand[2])) & WORD
        return None

    def ends_emulator(self, operands, registers):
        place = self.accessed(operands, registers)
        return place is not None and (place - DEVICE + 4) & WORD < 8

    # Sequences

    def sequences(self, steps):
        """So many steps. Returns in how many runs."""
        runs, end = 0, self.done + steps
        while self.done < end:
            self.sequence(end - self.done)
            runs += 1
        return runs

    def sequence(self, steps):
        """Steps from a free list that is linked once, until one traps in QEMU."""
        draw, first = self.draw, link_of(WINDOW)
        self.fill()
        for i in range(AREAS):
            self.put(WINDOW + 64 * i, struct.pack("<I", first + i + 1 if i + 1 < AREAS else 0))
        registers = self.registers()
        registers[FCX], registers[PCXI] = first, 0
        registers[LCX] = first + AREAS - draw.randrange(1, 4)
        self.stub.put_registers(registers)
        for _ in range(steps):
            if not CODE <= registers[PC] < CODE_END or registers[PC] & 1:
                registers[PC], registers[ICR] = draw.randrange(CODE, CODE_END, 2), self.number()
                self.stub.put_others(registers)
            row, word, operands = self.chosen(registers)
            self.code(registers[PC], word, row.length)
            registers = self.compared(row, operands, registers)
            if registers[PC] & ~0xFFFF == VECTORS:
                break

    def chosen(self, registers):
        """A row for the next step, its word and operands: a save, a restore, or neither."""
        draw = self.draw
        kind = draw.randrange(16)
        restores = UPPER if registers[PCXI] & UL or draw.randrange(50) == 0 else LOWER
        names = SAVES if kind < 6 else restores if kind < 12 and registers[PCXI] & 0xFFFFF else ()
        while True:
            row = draw.choice(ROWS_OF[names] if names else readers.ROWS)
            word, operands = self.spelled(row)
            if names or self.is_quiet(row, operands, registers):
                return row, word, operands

    def is_quiet(self, row, operands, registers):
        """Whether an instruction leaves contexts and PSW alone, and stores into the data."""
        name = row.name.replace("16", "", 1)
        if name in (*SAVES, *UPPER, *LOWER, "mtcr", "syscall"):
            return False
        place = self.accessed(operands, registers)
        if self.ends_emulator(operands, registers):
            return False
        return not name.startswith("st") or DATA <= place < WINDOW + SIZE - 3

    # Without QEMU

    def alone(self, steps):
        """Random events on rows and other bytes, with interrupts and `aln` traps."""
        draw = self.draw
        for n in range(steps):
            if n % 50 == 0:
                self.fill()
            row = draw.choice(readers.ROWS)
            (word, _, registers), length = self.state(row), row.length
            registers[PSW], registers[BTV] = draw.getrandbits(32), self.number()
            registers[FCX] |= draw.choice([0, 1 << 20])
            label = f"{row.name} {', '.join(row.operands)} ({row.form})"
            if draw.randrange(16) == 0:
                word, length, label = draw.getrandbits(32), 4, "any bytes"
            if draw.randrange(16) == 0:
                odd = registers[PC] | 1
                registers[PC] = draw.choice([0x801FFFFC, 0x801FFFFE, odd, self.number()])
            self.code(registers[PC], word, length)
            irq = draw.choice([0, 0, 0, draw.randrange(256)])
            event = Event(irq, self.number(), draw.getrandbits(8), draw.randrange(2) == 1)
            end = self.both(label, registers, event, draw.choice(["1.3", "1.6"]))[1]
            self.count(f"dies of `{end}`" if end else "", label)
            self.window[:] = self.steps.window
            self.level()

    def whole_memory(self):
        """Compares the whole memory of the board once nothing more is done. Returns its size."""
        ours = {**self.steps.close(), **dict(self.steps.puts)}
        for at, size in BOARD:
            python = self.python.m.memory.bytes(at, size)
            words = struct.unpack(f"<{size // 4}I", python)
            differ = [at + 4 * i for i, word in enumerate(words) if word != ours.get(at + 4 * i, 0)]
            if differ or self.stub and self.stub.memory(at, size) != python:
                self.wrong += 1
                print(
                    f"memory from {at:08X} on differs; tools/tcdlib/machine.py: {len(differ)} words"
                )
        return sum(size for _, size in BOARD)

    def summary(self, part):
        """Prints what was found since the last call."""
        print(f"{part}:")
        for reason, count in self.found.most_common():
            print(f"{count:8}  {reason or 'alike'} ({len(self.rows_of[reason])} rows)")
        self.found.clear()
        self.rows_of.clear()


def built(folder, keep):
    """The small program, over copies of the crates with what was checked of them."""
    crates = folder / "crates"
    listed = {line.partition(":")[0]: line for line in open(TOP / "crates.txt", encoding="utf-8")}
    for crate in CRATES:
        for part in ("src", "specs", "proofs", "out/rlib"):
            if (TOP / "crates" / crate / part).exists():
                shutil.copytree(TOP / "crates" / crate / part, crates / crate / part)
    (crates / "steps" / "src").mkdir(parents=True)
    (crates / "steps" / "src" / "main.rt").write_text(PROGRAM.lstrip())
    below = f"steps: {' '.join(reversed(CRATES))} arrayvec serde_json\n"
    (folder / "crates.txt").write_text("".join([*(listed[crate] for crate in CRATES), below]))
    shutil.copy(TOP / "HANDLES", folder)
    how = {"stdin": subprocess.DEVNULL, "stdout": subprocess.PIPE, "stderr": subprocess.STDOUT}
    done = subprocess.run(["rt", "run"], cwd=crates / "steps", **how)
    program = crates / "steps" / "out" / "steps"
    if done.returncode or not program.exists():
        sys.exit(done.stdout.decode()[-4000:])
    if keep:
        shutil.copy(program, keep)
    return str(program)


def given_words():
    reader = argparse.ArgumentParser(description="Compares the machine with QEMU's, step by step.")
    reader.add_argument("--program", help="the small program, built before (--keep)")
    reader.add_argument("--keep", help="a file for a copy of the small program")
    reader.add_argument("--each", type=int, default=200, help="steps of each row (200)")
    reader.add_argument("--sequences", type=int, default=100000, help="steps in sequences (100000)")
    reader.add_argument("--alone", type=int, default=100000, help="steps without QEMU (100000)")
    reader.add_argument("--seed", type=int, default=1)
    reader.add_argument("--row", help="rows of this name alone")
    return reader.parse_args()


def beside_qemu(given, program, folder):
    """The rows, the sequences, the memory after them. Returns the bench and the size of memory."""
    stub = Stub(folder)
    try:
        bench = Bench(program, given.seed, stub)
        rows = [row for row in readers.ROWS if given.row in (None, row.name)]
        for row in rows:
            bench.row(row, given.each)
        bench.summary(f"each of {len(rows)} rows")
        runs = bench.sequences(given.sequences)
        size = bench.whole_memory()
        bench.summary(f"{runs} sequences")
    finally:
        stub.close()
    return bench, size


def main():
    given = given_words()
    with tempfile.TemporaryDirectory() as name:
        program = given.program or built(pathlib.Path(name), given.keep)
        bench, size = beside_qemu(given, program, pathlib.Path(name))
        alone = Bench(program, given.seed)
        alone.alone(given.alone)
        alone.whole_memory()
        alone.summary("without QEMU")
    wrong = bench.wrong + alone.wrong
    print(f"{bench.done} steps beside QEMU, {alone.done} without, {size} bytes, {wrong} wrong")
    sys.exit(1 if wrong else 0)


if __name__ == "__main__":
    main()
