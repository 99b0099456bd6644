#ifdef A
int x;
#else
long x;
#endif
int main(void) { x = 1; return 0; }
