# A message in ram is read field by field, where the other side says its fields begin. A core may
# trap at a word that isn't at a multiple of 4 (class 2): the plan has `aln`. The handler turns
# the output off and stays: its `rfe` would try the same access again.

.section text
.global main
main:
    call   read_message
    j      main

read_message:
    movh.a a15, 0xF020
    ld.w   d4, [a15]0               # where the field begins, 0 to 60 by the plan (F0200000)
    call   field
    movh.a a15, hi:last
    st.w.l [a15]lo:last, d2
    ret16

field:                              # the word at offset D4 of the message
    movh.a a15, hi:message
    lea.l  a15, [a15]lo:message
    addsc.a a15, a15, d4, 0
    ld.w   d2, [a15]0               # may trap if D4 is no multiple of 4
    ret16

.section trap_2
    j      misaligned

.section text
misaligned:
    call   output_off
stay:
    j      stay
output_off:
    movh.a a15, 0xF020
    mov    d0, 0
    st.w   [a15]4, d0               # the output's register, at F0200004
    ret16

.section message_in_ram
message:
.section last_in_ram
last:
