# a class file of empty lines, a byte too large
head -c 8388609 /dev/zero | tr '\0' '\n' >"$1/classes"
