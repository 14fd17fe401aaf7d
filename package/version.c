/* The version of an archive of the package, in an object file of its own: the proved code stays as it was built. */
#include "planreader.h"

const char planreader_version[] = PLANREADER_VERSION;
