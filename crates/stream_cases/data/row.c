#ifdef A
#define N 1
#else
#define N 2
#endif
#if N == 1
int a;
#endif
int b = N;
