/* The version of the library, for a program that was compiled with the header of another one. */
#include "npos.h"

const char *npos_version(void) { return NPOS_VERSION; }
