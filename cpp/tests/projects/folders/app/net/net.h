#pragma once

#include <nanolog.hpp>

#include "plain.h"

int connect();

inline void tell_net(int number) { NANO_LOG(WARNING, "net.h %d", kPlain + number); }
