#include "print.h"

#ifdef LOG
void log_greeting(void);
#endif

int main(void) {
  PRINT(72);
  PRINT(105);
  PRINT(END);
#ifdef LOG
  log_greeting();
#endif
  return 0;
}
