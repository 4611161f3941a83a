/* The independent account as a program. FAULT in the environment plants an error: it then stands in for a wrong program. */
#include <stdio.h>
#include <stdlib.h>

#include "account.h"

int main(void)
{
    static struct bytes input, output;
    unsigned char part[4096];
    const char *fault = getenv("FAULT");
    size_t k;

    while ((k = fread(part, 1, sizeof part, stdin)) > 0) add_bytes(&input, part, k);
    account(&input, &output, fault == NULL ? 0 : atoi(fault));
    fwrite(output.at, 1, output.length, stdout);
    return 0;
}
