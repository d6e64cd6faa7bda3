# A timer interrupt, forward and backward.
add-symbol-file ticks_kernel.elf
break handler
continue
print ticks
print $epc == $pc
reverse-stepi
print $pc == 0x80
print ticks
stepi
info registers pc
continue
print ticks
reverse-step
delete
watch total
reverse-continue
reverse-continue
delete
reverse-step
reverse-continue
info registers pc
