# A Ctrl-C that reaches the stub while the machine stands, between two of many single steps: the next step does not move it. The stub between sends it (early).
stepi 10
print $onhand
stepi 100
print $onhand
stepi
print $onhand
