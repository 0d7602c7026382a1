// The header file is C++ too: tools/c_interface.sh compiles this.
#include "prophesee_raw.h"
