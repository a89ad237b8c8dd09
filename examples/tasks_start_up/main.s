# Two tasks that give way to each other by calling `switch`. Task 0 measures, with interrupts on;
# task 1 (show.s) shows what was measured, with interrupts off. Each has its own list of save areas;
# both take from one set of areas.

.section text
.global main
main:
    enable                          # `switch` comes back with interrupts off
    call   measure
    call   switch
    j      main

measure:
    movh.a a15, 0xF040
    ld.w   d4, [a15]0               # the sensor's register, at F0400000
    call   filter
    movh.a a15, hi:level
    st.w.l [a15]lo:level, d2
    ret16
filter:                             # half of what it was, half of what it is
    movh.a a15, hi:level
    ld.w.l d2, [a15]lo:level
    add    d2, d2, d4
    sh     d2, d2, -1
    ret16

.section vector_20                  # the tick
    svlcx
    call   tick
    rslcx
    rfe16

.section text
tick:
    movh.a a15, hi:ticks
    ld.w.l d0, [a15]lo:ticks
    add    d0, d0, 1
    st.w.l [a15]lo:ticks, d0
    ret16

.section level_in_ram
.global level
level:
.section ticks_in_ram
ticks:
