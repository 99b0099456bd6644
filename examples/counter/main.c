#include <stdio.h>
#include "counter.h"
int main(void)
{
    struct counter c = { 0 };
    int i;
    for (i = 0; i < 3; i++) {
        add(&c, i);
#ifdef TRACE
        putchar('0' + c.total);
#endif
    }
    putchar('0' + c.total);
    putchar('\n');
    return 0;
}
