regular mentat class calc { int f() { rtf(1); } };
persistent mentat class cell { int get() { rtf(1); } };
int main() { print(input()); }