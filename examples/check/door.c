#include <stdio.h>

#ifdef ALARM
static int tries;
#endif

static int opens(int code)
{
#ifdef LOCK
    if (code != '7') {
        tries = tries + 1;
        return 0;
    }
#endif
    return 1;
}

int main(void)
{
    if (opens(getchar()))
        puts("open");
#ifdef ALARM
    if (tries > 2)
        puts("alarm");
#endif
    return 0;
}
