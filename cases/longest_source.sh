printf 'int main() { }'; head -c 1048562 /dev/zero | tr '\0' ' '
