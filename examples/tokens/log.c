#include "print.h"

void log_greeting(void) {
  PRINT(10);
}
