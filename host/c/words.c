/* Prints the header's words of the refusal whose number is given. */
#include "railnoise.h"

#include <stdio.h>
#include <stdlib.h>

int main(int count, char **words)
{
    if (count != 2)
        return 2;
    return puts(railnoise_refusal_words((uint32_t)strtoul(words[1], NULL, 10))) < 0;
}
