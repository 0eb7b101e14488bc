/* The version of the library: the only code in it that is not Rattle's. */
#include "funkenrille.h"

const char *funkenrille_version(void)
{
    return FUNKENRILLE_VERSION;
}
