#include "expect.h"

#include <stdio.h>
#include <stdlib.h>

void expect(int holds, const char *words)
{
    if (!holds) {
        fprintf(stderr, "the engine breaks its promise: %s\n", words);
        abort();
    }
}
