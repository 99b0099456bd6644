#include "twice.h"
#include "twice.h"
#if defined A
int a;
#elif defined B
int b;
#else
int c;
#endif
#ifdef B
#ifdef A
int ab;
#else
#undef N
#endif
#error
#endif
int z = N;
