/* The version of the library, beside the proved functions in it. */

#include "planner.h"

const char *planner_version(void)
{
    return PLANNER_VERSION;
}
