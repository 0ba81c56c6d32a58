printf 'int main() { }'; head -c 1048563 /dev/zero | tr '\0' ' '
