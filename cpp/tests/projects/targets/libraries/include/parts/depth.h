#pragma once

constexpr int kDepth = 40;
