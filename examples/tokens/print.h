#ifndef PRINT_H
#define PRINT_H

#include <stdio.h>

#define PRINT(c) putchar(c)
#ifdef LOUD
#define END 33
#else
#define END 46
#endif

#endif
