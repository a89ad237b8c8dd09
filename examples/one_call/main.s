# A main that calls one function: it sums a table in rom, keeps the sum in ram and stays.

.section text
.global main
main:
    movh.a a4, hi:samples           # arguments in A4 and D4, as compilers pass them
    lea.l  a4, [a4]lo:samples
    mov    d4, 5
    call   sum                      # takes an area: A10 to A15, D8 to D15 are saved there
    movh.a a15, hi:total            # back here the area is free again; the result is in D2
    st.w.l [a15]lo:total, d2
    j      .+0

.section tables
samples:
    .word 1, 20, 300, 4000, 50000

# A section without bytes: the label has an address in RAM, and nothing is loaded there.
.section data
total:
