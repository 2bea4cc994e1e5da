/* Prints the library's version, and the words for 0 to 40 and for the largest 32-bit number. */
#include <stdio.h>

#include "snoekeldraf.h"

int main(void)
{
    uint32_t version = snoekeldraf_version();
    printf("%u.%u.%u\n", (unsigned)(version >> 16), (unsigned)(version >> 8 & 255), (unsigned)(version & 255));
    for (uint32_t status = 0; status <= 40; status++) printf("%u %s\n", (unsigned)status, snoekeldraf_words(status));
    printf("%u %s\n", 4294967295u, snoekeldraf_words(4294967295u));
    return 0;
}
