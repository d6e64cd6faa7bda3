# Ctrl-C in an endless loop, in the middle of very many single steps, and with a watch. Between two steps gdb itself says Quit and does not ask the stub, so
# behind the steps only their end is expected; stands.gdb is for a Ctrl-C that the stub gets there.
add-symbol-file ticks_kernel.elf
tbreak forever
continue
shell (sleep 2; kill -INT $PPID) &
continue
echo one\n
shell (sleep 2; kill -INT $PPID) &
stepi 100000000
echo two\n
watch total
shell (sleep 2; kill -INT $PPID) &
continue
echo three\n
