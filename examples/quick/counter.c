int total = 0;
int step = 1;
int digit = 48;
#ifdef VERBOSE
int newline = 10;
#endif
#ifdef COUNT_DOWN
int last = 3;
#else
int last = 5;
#endif

int main(void) {
  while (last - total) {
#ifdef COUNT_DOWN
    putchar(digit + last - total);
#else
    putchar(digit + total);
#endif
#ifdef VERBOSE
    putchar(newline);
#endif
    total = total + step;
  }
#ifdef VERBOSE
  putchar(116);
  putchar(61);
#endif
  putchar(digit + total);
  putchar(10);
  return 0;
}
