# Task 1 begins at a place of its own, which the file of tasks names; start_up.s knows its label.

.section task_1
.global show
show:
    movh.a a15, hi:level
    ld.w.l d4, [a15]lo:level
    call   put_level
    call   switch
    j      show

.section text
put_level:                          # two digits
    mov16  d8, d4
    mov    d5, 0
    call   put_digit
    sh     d4, d8, -4
    mov    d5, 1
    call   put_digit
    ret16
put_digit:                          # digit D4 at place D5 of the display
    call   segments_of
    movh.a a15, 0xF040
    lea    a15, [a15]16
    addsc.a a15, a15, d5, 2
    st.w   [a15]0, d2               # F0400010 or F0400014
    ret16
segments_of:
    and    d4, d4, 15               # from ram it is any word: keep the load within the table
    movh.a a15, hi:segments
    lea.l  a15, [a15]lo:segments
    addsc.a a15, a15, d4, 0
    ld.bu  d2, [a15]0
    ret16

.section tables
segments:
    .byte 0x3F, 0x06, 0x5B, 0x4F, 0x66, 0x6D, 0x7D, 0x07, 0x7F, 0x6F, 0x77, 0x7C, 0x39, 0x5E, 0x79, 0x71
