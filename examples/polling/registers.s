# The devices' registers by name: sections without bytes, which the layout places at the board's
# addresses. `hi:` and `lo:` take these apart, so that no source holds one.

.section knob_register
.global knob
knob:
.section selector_register
.global selector
selector:
.section valve_registers
.global valves
valves:
