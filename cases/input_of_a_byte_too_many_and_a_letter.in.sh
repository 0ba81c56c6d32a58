printf 'x'; head -c 2097152 /dev/zero | tr '\0' ' '
