# A watch over a slow handler, on a core of TriCore 1.6. Interrupt 30 asks what it has interrupted:
# after its entry PCXI has the priority of the interrupted code (PCPN), on this core in bits 29:22.
# If that is 10, the work of interrupt 10 isn't done yet, and a late sample is counted. Both keep
# words on the interrupt stack.

.section text
.global main
main:
    call   pause
    j      main
pause:
    nop16
    ret16

.section vector_10                  # a sample is there
    bisr16 10
    call   sample
    rslcx
    rfe16

.section text
sample:
    sub16.a a10, 16                 # a buffer of four words; `ret16` gives it back
    movh.a a15, 0xF010
    mov    d8, 0
fill:
    ld.w   d0, [a15]0               # the converter's register, at F0100000
    and    d1, d8, 3                # four words: so all possible stores are in the buffer
    addsc.a a4, a10, d1, 2
    st.w   [a4]0, d0
    add    d8, d8, 1
    jne    d8, 4, fill
    mov.aa a4, a10
    call   scale
    movh.a a15, hi:level
    st.w.l [a15]lo:level, d2
    ret16
scale:                              # D2 = the mean of the four words at A4, in steps of four counts
    ld.w   d2, [a4]0
    ld.w   d0, [a4]4
    add    d2, d2, d0
    ld.w   d0, [a4]8
    add    d2, d2, d0
    ld.w   d0, [a4]12
    add    d2, d2, d0
    sh     d2, d2, -4
    ret16

.section vector_30                  # the clock
    mfcr   d15, 0xFE00              # PCXI, before bisr16 changes it; the entry has saved D15
    bisr16 30
    call   watch
    rslcx
    rfe16

.section text
watch:
    sub16.a a10, 8                  # a local: `call` keeps D8 to D15 alone
    sh     d0, d15, -22
    and    d0, d0, 255              # PCPN: the priority of what was interrupted
    st.w   [a10]0, d0
    ne     d0, d0, 10
    jnz16  d0, in_time
    call   count_late
in_time:
    ld.w   d0, [a10]0
    movh.a a15, hi:last
    st.w.l [a15]lo:last, d0
    ret16
count_late:
    movh.a a15, hi:late
    lea.l  a15, [a15]lo:late
    ld.w   d0, [a15]0
    add    d0, d0, 1
    st.w   [a15]0, d0
    ret16

.section level_in_ram
level:
.section late_in_ram
late:
.section last_in_ram                # the priority of what the clock interrupted last
last:
