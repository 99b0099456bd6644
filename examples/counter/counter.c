#include "counter.h"
static int twice(int v) { return v * 2; }
void add(struct counter *c, int n)
{
    int step = n;
#ifdef DOUBLE
    step = twice(step);
#endif
    c->total = CLAMP(c->total + step, 9);
#ifdef WIDE
    c->high = c->high + 1;
#endif
}
