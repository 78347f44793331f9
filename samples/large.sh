#!/bin/sh
# Prints a run sheet of 102,007 bytes, in the form that make.sh takes, for measuring: 256 locations,
# 32 processes, 200 KCSS of 16 operands and 65,535 script items.
#   sh samples/large.sh > large.hex && sh samples/make.sh large.hex > large.sheet
awk '
function put(number, width,    i) {
    for (i = 0; i < width; i++) {
        printf "%02x ", number % 256
        number = int(number / 256)
    }
}
BEGIN {
    locations = 256; processes = 32; operations = 200; operands = 16; items = 65535
    start = 24 + 8 * locations
    script = start + operations * (12 + 10 * operands)
    put(1, 1); put(1, 1); put(locations, 2); put(processes, 2); put(items, 2)
    put(24, 4); put(start, 4); put(script, 4); put(script + items, 4)
    for (a = 0; a < locations; a++) { print ""; put(a, 8) }
    for (m = 0; m < operations; m++) {
        print ""
        put(5, 1); put(m % processes, 1); put(operands, 1); put(0, 1); put(9, 8)
        for (i = 0; i < operands; i++) { put((m + i) % locations, 2); put((m + i) % locations, 8) }
    }
    for (n = 0; n < items; n++) {
        if (n % 64 == 0) print ""
        put(n < operations ? 255 : n % processes, 1)
    }
    print ""
}'
