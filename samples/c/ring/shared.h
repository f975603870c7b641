/* The ring that the two parts have in the page `shared`. */
#define RING_WORDS 4
#include "ring.h"
