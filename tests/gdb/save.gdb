# Detach saves the station.
tbreak set_units
continue
print $onhand
detach
