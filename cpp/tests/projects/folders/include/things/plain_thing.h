#pragma once

constexpr int kThing = 2;
