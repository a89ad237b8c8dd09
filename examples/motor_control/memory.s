# The variables, in sections without bytes: the layout has their addresses and sizes.

# drive, 16 words: +0 state, +4 wanted, +8 demanded, +12 measured speed, +16 torque, +20 last angle,
# +24 integral of the current, +28 turns aligned, +32 step of the ramp, +36 fault, +40 ms of lag.
.section drive_in_ram
.global drive
drive:

# link, 4 words: +0 state of the protocol, +4 command, +8 value; the last one is free.
.section link_in_ram
.global link
link:
