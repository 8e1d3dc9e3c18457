// One statement for each thing that can be wrong with one. This file isn't meant for a compiler.
NANO_LOG(FATAL, "out of paper");          // names no severity
NANO_LOG(NOTICE, title);                  // has a format that is no literal
NANO_LOG(NOTICE, "%f seconds", seconds);  // has a format with a conversion that there isn't
NANO_LOG(NOTICE, "%d of %d", done);       // lacks an argument
#line 1 ""
NANO_LOG(NOTICE, "printed");              // stands in a file without a name
#line 9 "examples/refused.cc"
NANO_LOG(NOTICE, "printed %d", pages;     // isn't closed
