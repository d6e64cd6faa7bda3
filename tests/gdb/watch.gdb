# A variable watched to the end, and back to the lines that wrote it.
watch units
continue
continue
tbreak forever
continue
backtrace
reverse-continue
backtrace
reverse-continue
reverse-continue
info registers pc
continue
delete
watch small[2]
continue
