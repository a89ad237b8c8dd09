"""Opcodes of the TriCore 1.3.1 and 1.6 manual (volume 2) that aren't in tcd's table, for known.py.

**They were written from memory of the manual and were not compared with it.** known.py uses them
for names, and for where unknown jumps go; what it counts first doesn't rest on them.

A row is the first byte, then the name; or the first byte, the lowest bit and the width of a second
opcode, and for values of that (hexadecimal, ranges with `-`) the names. Several rows may have one
first byte.
"""

ROWS = """
00 12 4 | 0A debug; 07 fret
01 20 8 | 63 mov.a; 60 addsc.a; 62 addsc.at; 40 eq.a; 41 ne.a; 42 lt.a; 43 ge.a; 48 eqz.a
01 20 8 | 49 nez.a
02 | mov
03 | madd
04 | ld.bu (+)
05 | ld (absolute)
06 | sh
07 21 2 | 00 nand.t; 01 orn.t; 02 xnor.t; 03 xor.t
08 | ld.bu a15
09 22 6 | 05 ld.d (+); 25 ld.d; 15 ld.d (+ before); 07 ld.da (+); 27 ld.da; 17 ld.da (+ before)
09 22 6 | 28 ld.q; 08 ld.q (+); 10-14 16 18-1F ld (+ before)
0A | cadd
0B 20 8 | 18 min; 19 min.u; 1A max; 1B max.u; 02 adds; 03 adds.u; 04 addx; 05 addc; 0A subs
0B 20 8 | 0B subs.u; 0C subx; 0D subc; 0E absdif; 1C abs; 1D abss; 5E sat.b; 5F sat.bu; 7E sat.h
0B 20 8 | 7F sat.hu; 80-81 mov (64 bits); 60 add.h; 68 sub.h; 20 and.eq; 21 and.ne; 22 and.lt
0B 20 8 | 24 and.ge; 27 or.eq; 28 or.ne; 29 or.lt; 2B or.ge
0C | ld.bu d15
0D 22 6 | 00 nop; 03 fret; 04 debug; 05 rfm; 0E restore; 0F disable (to a register); 14 trapv
0D 22 6 | 15 trapsv; 16 wait; 2F rstv
0E | jltz
0F 20 8 | 02 shas; 1B clz; 1C clo; 1D cls; 40 sh.h; 41 sha.h; 7C clz.h; 7D clo.h; 7E cls.h
10 | addsc.a
12 | add
13 | madd
14 | ld.bu
15 | ldlcx, lducx, stlcx, stucx
16 | and d15
17 21 3 | 00 insert; 02 extr; 03 extr.u; 04 dextr
19 | ld.w (16-bit offset)
1A | add
1E | jeq d15, k
1F 31 1 | 00 jnei; 01 jned
20 | sub.a
22 | adds
23 | msub
24 | st.b (+)
25 | st (absolute)
26 | and
27 21 2 | 00 sh.and.t; 01 sh.or.t; 02 sh.nor.t; 03 sh.andn.t
28 | st.b a15
29 | ld (circular or bit-reversed)
2A | cmov
2B 20 4 | 00 cadd; 01 caddn; 02 csub; 03 csubn; 04 sel; 05 seln
2C | st.b d15
2D 20 8 | 00 calli; 01 fcalli; 02 jli; 03 ji
2E | jz.t (16 bits)
30 | add.a
32 12 4 | 05 rsub; 00 sat.b; 01 sat.bu; 02 sat.h; 03 sat.hu
33 | msub
34 | st.b
37 21 2 | 00 insert; 01 imask; 02 extr; 03 extr.u
39 | ld.bu (16-bit offset)
3A | eq
3C | j
3E | jeq d15, d
40 | mov.aa
42 | add
43 | madd.q
44 | ld.w (+)
45 | ld.q (absolute)
46 | not
47 21 2 | 00 and.and.t; 01 and.or.t; 02 and.nor.t; 03 and.andn.t
48 | ld.w a15
49 | swap.w, ldmst, lea, ldlcx, stlcx, cmpswap
4A | caddn
4B 20 8 | 04 mul.f; 05 div.f; 0C updfl; 10 ftoi; 11 ftoq31; 12 ftou; 13 ftoiz; 14 itof
4B 20 8 | 15 q31tof; 16 utof; 17 ftouz; 19 qseed.f; 00 cmp.f; 01 bmerge; 02 parity; 03 crc32
4B 20 8 | 08 unpack; 09 bsplit; 0A dvinit.u; 1A dvinit; 2A dvinit.hu; 3A dvinit.h; 4A dvinit.bu
4B 20 8 | 5A dvinit.b; 20 div; 21 div.u
4C | ld.w d15
4E | jgtz
50 | addsc.a
52 | sub
53 21 7 | 01 mul; 03 mul (64 bits); 02 mul.u; 04 muls.u; 05 muls
54 | ld.w
57 21 2 | 00 insert; 01 imask; 02 extr; 03 extr.u
58 | ld.w d15 (stack)
59 | st.w (16-bit offset)
5A | sub
5C | call
5D | jl
5E | jne d15, k
60 | mov.a
61 | fcall
62 | subs
63 | msub.q
64 | st.w (+)
65 | st.q (absolute)
67 21 2 | 00 ins.t; 01 insn.t
68 | st.w a15
69 | ldmst / swap (circular or bit-reversed)
6A | cmovn
6B 20 4 | 00 pack; 0D dvadj; 0E dvstep.u; 0F dvstep; 08 ixmin; 09 ixmin.u; 0A ixmax; 0B ixmax.u
6B 20 4 | 02 add.f; 03 sub.f; 06 madd.f; 07 msub.f
6C | st.w d15
6F 31 1 | 00 jz.t; 01 jnz.t
73 16 12 | 0A mul; 6A mul (64 bits); 68 mul.u; 8A muls; 88 muls.u
74 | st.w
76 | jz
77 | dextr
78 | st.w d15 (stack)
79 | ld.b (16-bit offset)
7A | lt
7C | jnz.a
7D | jeq.a, jne.a
7E | jne d15, d
80 | mov.d
82 | mov
83 | madd.h
84 | ld.h (+)
85 26 2 | 01 ld.d (absolute); 03 ld.da (absolute)
86 | sha
87 21 2 | 00 and.t; 01 or.t; 02 nor.t; 03 andn.t
88 | ld.h a15
89 22 6 | 05 st.d (+); 25 st.d; 15 st.d (+ before); 27 st.da; 07 st.da (+)
89 22 6 | 10-14 16-1F st (+ before); 2B-3F cachea / cachei
8A | cadd
8B 21 7 | 18 min; 19 min.u; 1A max; 1B max.u; 02 adds; 03 adds.u; 04 addx; 05 addc; 0E absdif
8B 21 7 | 0A rsubs; 0B rsubs.u; 56 eqany.b; 76 eqany.h; 20 and.eq; 21 and.ne; 22 and.lt
8B 21 7 | 23 and.lt.u; 24 and.ge; 25 and.ge.u; 27 or.eq; 28 or.ne; 29 or.lt; 2A or.lt.u
8B 21 7 | 2B or.ge; 2C or.ge.u; 2F xor.eq; 30 xor.ne; 31 xor.lt; 33 xor.ge; 37 sh.eq; 38 sh.ne
8C | ld.h d15
8E | jlez
8F 21 7 | 02 shas; 09 nand; 0B nor; 0D xnor; 0E andn; 0F orn; 40 sh.h; 41 sha.h
90 | addsc.a
92 | add
93 | mul.q
94 | ld.h
96 | or
97 | insert
99 | ld.a (16-bit offset)
9A | add
9E | jeq d15, k
9F 31 1 | 00 jnei; 01 jned
A0 | mov.a
A3 | msub.h
A4 | st.h (+)
A5 26 2 | 01 st.d (absolute); 03 st.da (absolute)
A6 | or
A7 21 2 | 00 sh.nand.t; 01 sh.orn.t; 02 sh.xnor.t; 03 sh.xor.t
A8 | st.h a15
A9 | st (circular or bit-reversed)
AA | cmov
AB 21 3 | 00 cadd; 01 caddn; 04 sel; 05 seln
AC | st.h d15
AD 21 7 | 00 bisr; 04 syscall; 01 tlb
AE | jnz.t (16 bits)
B0 | add.a
B3 | mul.h
B4 | st.h
B5 | st.a (16-bit offset)
B7 21 2 | 00 insert; 01 imask
B9 | ld.hu (16-bit offset)
BA | eq
BC | jz.a
BD | jz.a, jnz.a
BE | jeq d15, d
C2 | add
C3 | maddsu.h
C4 | ld.a (+)
C6 | xor
C7 21 2 | 00 or.and.t; 01 or.or.t; 02 or.nor.t; 03 or.andn.t
C8 | ld.a a15
C9 | ld.h (16-bit offset)
CA | caddn
CC | ld.a a15
CE | jgez
D0 | addsc.a
D2 | mov (64 bits, 16)
D4 | ld.a
D5 | st.t
D7 21 2 | 00 insert; 01 imask
D8 | ld.a a15 (stack)
DA | mov d15
DC | ji
DD | jla
DE | jne d15, k
E0 | bisr
E1 | fcalla
E2 | mul
E3 | msubad.h
E4 | st.a (+)
E5 | ldmst / swap.w (absolute)
E8 | st.a a15
E9 | st.b (16-bit offset)
EA | cmovn
EC | st.a a15
EF 31 1 | 00 jz.t; 01 jnz.t
F4 | st.a
F6 | jnz
F8 | st.a a15 (stack)
F9 | st.h (16-bit offset)
FA | lt
FC | loop (16 bits)
FD | loopu
FE | jne d15, d
"""
#: where unknown jumps go, by the first byte: the form of their distance
FORMS = {
    "call": "5D 61",
    "branch": "1F 6F 7D 9F BD EF FD",
    "ahead": "0E 1E 2E 3E 4E 5E 76 7C 7E 8E AE BC CE F6",
    "far ahead": "9E BE DE FE",
    "back": "FC",
}
#: names of instructions that don't go on, and of those that go on through a register
ENDS, THROUGH = ("fret", "rfm", "ji"), ("jli", "ji", "fcalli")


def numbers(text):
    """The numbers of a text like `10-14 16`."""
    for word in text.split():
        first, _, last = word.partition("-")
        yield from range(int(first, 16), int(last or first, 16) + 1)


def read():
    """The rows by their first byte: a name, or (lowest bit, width, names by the second opcode)."""
    found = {}
    for line in ROWS.strip().splitlines():
        head, _, text = line.partition(" | ")
        first, *field = head.split()
        if not field:
            found[int(first, 16)] = text
            continue
        _, _, names = found.setdefault(int(first, 16), (int(field[0]), int(field[1]), {}))
        for item in text.split("; "):
            codes, name = split(item)
            names.update(dict.fromkeys(numbers(codes), name))
    return found


def split(item):
    """The codes and the name of an item like `10-14 16 ld (+ before)`."""
    words = item.split(" ")
    count = next(n for n, word in enumerate(words) if not is_code(word))
    return " ".join(words[:count]), " ".join(words[count:])


def is_code(word):
    """Whether a word is a code or a range of codes: upper-case digits, which no name has."""
    return all(c in "0123456789ABCDEF-" for c in word)


BY_BYTE = read()
FORM_OF = {int(byte, 16): form for form, bytes_ in FORMS.items() for byte in bytes_.split()}


def name_of(word, length):
    """What the manual calls an instruction, as far as it is known here."""
    first = word & 255
    row = BY_BYTE.get(first, f"opcode {first:02X}")
    if isinstance(row, tuple):
        low, width, names = row
        second = word >> low & (1 << width) - 1
        row = names.get(second, f"opcode {first:02X}, {second:02X}")
    return row if length == 4 or "16" in row else f"{row} (16 bits)"


def signed(value, width):
    return value - (1 << width) if value >> width - 1 else value


def target(pc, word):
    """Where an unknown jump or call goes, or None if it is none."""
    form, ahead = FORM_OF.get(word & 255), word >> 8 & 15
    if form == "call":
        distance = signed((word >> 8 & 255) << 16 | word >> 16, 24)
    elif form == "branch":
        distance = signed(word >> 16 & 0x7FFF, 15)
    else:
        distance = {"ahead": ahead, "far ahead": ahead + 16, "back": ahead - 16}.get(form)
    return None if distance is None else pc + 2 * distance & 0xFFFFFFFF
