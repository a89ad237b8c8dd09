# A ramp: each tick of the clock raises `level` by `step`, and at `limit` it begins again. The three
# are initialised: their first values are in flash, and `copy_data` copies them to ram.

.section text
.global main
main:
    call   copy_data
    enable
wait:
    movh.a a14, 0xF040
    movh.a a15, hi:level
    ld.w.l d0, [a15]lo:level
    st.w   [a14]0, d0               # the output's register, at F0400000
    j      wait

copy_data:
    movh.a a4, hi:data_load
    lea.l  a4, [a4]lo:data_load
    movh.a a5, hi:level
    lea.l  a5, [a5]lo:level
    mov    d1, 0
next:
    addsc.a a6, a4, d1, 2
    addsc.a a7, a5, d1, 2
    ld.w   d0, [a6]0
    st.w   [a7]0, d0
    add    d1, d1, 1
    jlt.u  d1, 3, next
    ret16

tick:
    movh.a a15, hi:level
    lea.l  a15, [a15]lo:level
    ld.w   d0, [a15]0               # level
    ld.w   d1, [a15]4               # step
    ld.w   d2, [a15]8               # limit
    add    d0, d0, d1
    st.w   [a15]0, d0
    jlt.u  d0, d2, below
    call   begin_again
below:
    ret16
begin_again:
    mov    d0, 0
    st.w   [a15]0, d0               # A15 is the caller's, which the call has left as it was
    ret16

.section vector_20                  # the clock
    svlcx
    call   tick
    rslcx
    rfe16

.section data                       # where the linker loads the first values
data_load:
    .word 0, 5, 10

.section data_in_ram                # where the program uses them
level:
