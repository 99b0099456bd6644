int x = 65;
#ifdef A
int y;
#endif
int main(void) { putchar(x); return 0; }
