# Breakpoints in the kernel, in ROM, and in the user program under translation.
set print elements 24
add-symbol-file kernel.elf
break kernel.S:66
break read_units
continue
print job.units
continue
print/x $status
backtrace 2
x/8c 0x80003000
delete
hbreak print_number
continue
backtrace 2
print job.units
delete
break *0x80
continue
print/x $cause
info symbol $epc
print job.order
reverse-stepi
info symbol $pc
print $nextpc == $pc + 4
monitor info tlb
delete
watch job.crowns
reverse-continue
delete
reverse-continue
info registers pc
