printf '1 2'; head -c 2097149 /dev/zero | tr '\0' ' '
