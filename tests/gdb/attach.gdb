# Attached again, with the steps of the session before still on hand.
print $onhand
backtrace 1
reverse-stepi
print $onhand
reverse-continue
print $onhand
kill
