#ifdef WIDE
long total;
#else
int total;
#endif
int main(void) { total = 1; return 0; }
