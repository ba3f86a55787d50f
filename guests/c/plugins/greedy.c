/* A plugin by somebody whom the host does not trust: it tries to write a reply of its own, says that its text is longer
   than the desk for the text "size", loops for "loop", and stores where the host has its data for "store". */
#include "plugins.h"
#include <string.h>

void greedy(void) {
  if (lwc_write(LWC_REPLY, desk.text, desk.size) >= 0)
    desk.text[0] = '!';
  if (memcmp(desk.text, "size", 4) == 0)
    desk.size = 1 << 20;
  else if (memcmp(desk.text, "loop", 4) == 0)
    for (volatile int i = 0;; i = 0)
      ;
  else if (memcmp(desk.text, "store", 5) == 0)
    *(volatile char *)lwc_data_begin = 1;
}
