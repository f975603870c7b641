/* The page `wire`: how many bytes a frame has, and from CONTENT on the bytes. */
#define COBS_MOST 32
#include "cobs.h"

enum { LENGTH = 0, CONTENT = 4 };
