/* A plugin that makes capitals of small letters. */
#include "plugins.h"

void capitals(void) {
  for (long i = 0; i < desk.size; i++)
    if (desk.text[i] >= 'a' && desk.text[i] <= 'z')
      desk.text[i] -= 32;
}
