int main() { print(1); while (true) { } }
