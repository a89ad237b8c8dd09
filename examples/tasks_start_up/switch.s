# The routine by which a task gives way: exactly these 18 instructions of four bytes, for two tasks.
# It keeps no area itself: `call switch` and `svlcx` take two of the task's, the task waits in them,
# and `rslcx` and `ret` give back the two of the task that goes on.

.section switch
.global switch
switch:
    disable
    svlcx
    movh.a a2, hi:waiting
    lea.l  a2, [a2]lo:waiting
    ld.w.l d0, [a2]8                # the number of the current task
    addsc.a a3, a2, d0, 2
    mfcr   d1, 0xFE00               # PCXI, where this task's list begins
    st.w.l [a3]0, d1
    addi   d0, d0, 1
    jne    d0, 2, .+8               # after the last task comes the first
    mov    d0, 0
    st.w.l [a2]8, d0
    addsc.a a3, a2, d0, 2
    ld.w.l d1, [a3]0
    mtcr   0xFE00, d1
    isync
    rslcx
    ret

.section waiting_in_ram
.global waiting
waiting:                            # a word for each task, and the number of the current one
