// This header has no statements, and isn't rewritten.
#pragma once

constexpr int kPlain = 10;
