/* The name that pdp1140.h had in 1.0 and 1.1. */
#include "pdp1140.h"
