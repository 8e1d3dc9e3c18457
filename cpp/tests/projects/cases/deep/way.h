#pragma once

#include "../told.h"
