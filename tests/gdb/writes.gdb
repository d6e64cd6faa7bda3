# What gdb writes is no step.
tbreak set_units
continue
set var total = 5
print total
print $onhand
reverse-stepi
set $t0 = 7
print $t0
stepi
print $onhand
set $t0 = 7
print $onhand
print fall(3)
set $status = 0xffffffff
print/x *(unsigned *)0x1fc00000
set var *(unsigned *)0x1fc00000 = 1
set var *(unsigned *)0x30000000 = 1
