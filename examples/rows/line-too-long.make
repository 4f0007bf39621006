# a line of spaces, a byte too long
head -c 1048577 /dev/zero | tr '\0' ' '
echo
