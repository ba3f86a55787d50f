/* What the host and its plugins have in common: the desk on which a text lies, and the functions of the plugins. */
#ifndef PLUGINS_H
#define PLUGINS_H
#include "lwc.h"

struct desk {
  long size;
  char text[256];
};
extern struct desk desk;

/* A plugin changes the text on the desk. Where it has its variables is up to it: it has its stack, and no data of
 * others. */
typedef void plugin(void);
plugin capitals, reversed, greedy;
#endif
