// Nobody names this header to the step. It includes one that has statements.
#pragma once

#include "part.h"

inline void all() { part(2); }
