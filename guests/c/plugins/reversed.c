/* A plugin that reverses the text. */
#include "plugins.h"

void reversed(void) {
  for (long i = 0, j = desk.size - 1; i < j; i++, j--) {
    char kept = desk.text[i];
    desk.text[i] = desk.text[j];
    desk.text[j] = kept;
  }
}
