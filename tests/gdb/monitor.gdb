# The station's own words.
tbreak forever
continue
monitor blame 0x20002010
monitor blame 0x20002011
monitor before 0x20002010
maintenance flush register-cache
backtrace 1
monitor xp/2xw 0x20002010
monitor run 5
monitor inof
monitor help
monitor reset
maintenance flush register-cache
info registers pc
