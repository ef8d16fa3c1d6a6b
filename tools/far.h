/* How far a program is, for `watched` of tools/common.sh, if that runs it. */
#include <stdio.h>
#include <stdlib.h>

static void tell(unsigned long long done, unsigned long long of) {
    const char *descriptor = getenv("RIDDOSKAM_HOW_FAR");
    if (descriptor && done % 256 == 0) dprintf(atoi(descriptor), "%llu of %llu\n", done, of);
}
