int main() { }
persistent mentat class cell { int get() { rtf(1); } };