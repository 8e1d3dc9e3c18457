#pragma once

constexpr const char *kName = "name";
