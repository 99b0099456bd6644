#ifndef COUNTER_H
#define COUNTER_H
#define CLAMP(v, top) ((v) > (top) ? (top) : (v))
struct counter {
    int total;
#ifdef WIDE
    long high;
#endif
};
void add(struct counter *c, int n);
#endif
