int/**/main() { // }
}