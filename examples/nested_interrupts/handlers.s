# The vectors: interrupt p enters at BIV | p << 5, so each has 32 bytes and a section of its own.
# The entry took an area and turned interrupts off. `bisr16 p` takes one more for D0 to D7 and A2 to
# A7, sets CCPN to p and turns interrupts on, so that only those above p come. `rslcx` gives that
# area back, `rfe16` the entry's. With the called function a handler takes 3 areas.

.section vector_10
    bisr16 10
    call   count_slow
    rslcx
    rfe16

.section vector_20
    bisr16 20
    call   count_middle
    rslcx
    rfe16

.section vector_30
    bisr16 30
    call   count_fast
    rslcx
    rfe16

# Each counts in RAM, in any register: `bisr16` saved the lower ones, `call` the upper ones.
.section text
count_slow:
    mov    d4, 0
    j      count
count_middle:
    mov    d4, 1
    j      count
count_fast:
    mov    d4, 2
count:
    movh.a a15, hi:counts
    lea.l  a15, [a15]lo:counts
    addsc.a a15, a15, d4, 2         # A15 + 4 * D4
    ld16.w d0, [a15]
    add16  d0, 1
    st16.w [a15], d0
    ret16

.section counts_in_ram
counts:
