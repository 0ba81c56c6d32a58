int main() { if }
