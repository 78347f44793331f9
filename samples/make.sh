#!/bin/sh
# Turns an annotated run sheet into its bytes, on standard output.
#   sh samples/make.sh samples/kcss.hex > kcss.sheet
# In the file a byte stands as two hexadecimal digits, with blanks or line ends between the bytes; '#' starts
# a comment that goes on to the end of its line.
sed 's/#.*//' "$1" | while read -r line; do
    set --
    for byte in $line; do
        set -- "$@" "0x$byte"
    done
    if [ $# -gt 0 ]; then
        printf "$(printf '\\%03o' "$@")"
    fi
done
