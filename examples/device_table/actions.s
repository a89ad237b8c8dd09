# What the positions do: D4 goes to the drive's register at F0300000.

.section text
.global stop
.global slow
.global fast
.global reverse
stop:
    mov    d4, 0
    j      drive
slow:
    mov    d4, 100
    j      drive
reverse:
    mov    d4, -100
    j      drive
fast:
    call   warn                     # the longest way: main, fast, warn
    mov    d4, 400
drive:
    movh.a a15, 0xF030
    st.w   [a15]0, d4
    ret16
warn:
    movh.a a15, 0xF030
    mov    d0, 1
    st.w   [a15]4, d0               # the lamp beside it
    ret16
