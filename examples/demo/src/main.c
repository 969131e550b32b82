#include <low.h>
#if defined EXTRA
#include "extra.h"
#endif
int puts(const char *);

int main(void)
{
    return puts(NAME) < 0 || low() != LOW;
}
