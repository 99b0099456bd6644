#include <stdio.h>
int level;
void show(void) { putchar('0' + level); putchar('\n'); }
int main(void)
{
#ifdef TRACE
    int depth = 7;
    putchar('0' + depth);
#endif
    level = 2;
    show();
    return 0;
}
