# A program over a small kernel: it asks by `syscall` for what only the kernel touches.

.section text
.global main
main:
    call   blink
    j      main
blink:
    mov    d4, 1
    syscall 0                       # lamp D4; the number reaches the kernel in D15
    syscall 1                       # the time, in D2: the kernel may change D0 to D7, A2 to A7
    add    d9, d2, 5                # D8 to D15 stay
wait:
    syscall 1
    jlt.u  d2, d9, wait
    mov    d4, 0
    syscall 0
    mov    d4, 0x21
    syscall 2                       # a character
    ret16
