#include <h.h>
#include "h.h"
M(x, y) __LINE__
#if VERSION > 2 && defined DEBUG
"debug"
#endif
#error stop
