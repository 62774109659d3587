/* Loaded before a program, unmasks division by zero, invalid operation and overflow for all that it runs. */
#define _GNU_SOURCE
#include <fenv.h>

__attribute__((constructor)) static void unmask(void)
{
    feenableexcept(FE_DIVBYZERO | FE_INVALID | FE_OVERFLOW);
}
