printf '1 2'; head -c 2097150 /dev/zero | tr '\0' ' '
