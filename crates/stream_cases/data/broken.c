#ifdef A
int a;
#else
int b;
#else
int c;
#endif
