# What is in ROM besides code. The linker fills in the addresses.

.section tables
.global states
states:                             # of the drive
    .word stopped, aligning, running, faulted
.global link_states
link_states:                        # of the protocol
    .word wait_mark, wait_command, wait_value, wait_sum
.global commands
commands:                           # 0 to 3
    .word set_speed, set_stop, get_speed, clear_fault
.global services
services:                           # of the fault trap
    .word service_none, service_fault, service_fault, service_clear
.global commutations
commutations:                       # by sector
    .word sector_0, sector_1, sector_2, sector_3, sector_4, sector_5
.global ramps
ramps:                              # steps a millisecond, by bands of 8 counts: gentle at speed
    .word 16, 16, 12, 8, 6, 4, 3, 2
.global sectors
sectors:                            # by the upper five bits of the angle
    .byte 0, 0, 0, 0, 0, 0
    .byte 1, 1, 1, 1, 1
    .byte 2, 2, 2, 2, 2
    .byte 3, 3, 3, 3, 3, 3
    .byte 4, 4, 4, 4, 4
    .byte 5, 5, 5, 5, 5
