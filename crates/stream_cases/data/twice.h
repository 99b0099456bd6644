#ifdef N
int again;
#else
#define N 1
int first;
#endif
