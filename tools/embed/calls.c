/* The header's calls as functions of a shared library, for callers that can't include it. */
#define ECAT_CALL
#include "ecat.h"
