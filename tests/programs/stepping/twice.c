int f(int i) {
return i + 1;
} int main(void) { int x;

x = f(1) + f(2);
return x;
}
