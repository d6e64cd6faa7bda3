# The job's units are wrong. Who wrote them?
set print elements 24
print job.units
watch job.units
reverse-continue
print job.units
print job.customer
backtrace 2
info registers pc
reverse-continue
backtrace 1
continue
continue
