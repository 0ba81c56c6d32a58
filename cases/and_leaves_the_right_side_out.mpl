int main() { print(false && 1 / 0 == 0, true || 1 / 0 == 0); print(true && 1 / 0 == 0); }
