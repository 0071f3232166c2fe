/* What a test may put into the place of the reference, to see that a wrong answer is found. */
#ifndef STAND_IN_H
#define STAND_IN_H

#include "reference.h"

/* What frostsorrel_explain asks: reference_explain, as long as no test says otherwise. */
extern list_function *explained_by;

#endif
