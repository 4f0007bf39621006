# empty lines, one too many
head -c 1000001 /dev/zero | tr '\0' '\n'
