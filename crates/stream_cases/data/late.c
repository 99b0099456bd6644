#ifdef A
int y;
#endif
int main(void) { return y; }
int y;
