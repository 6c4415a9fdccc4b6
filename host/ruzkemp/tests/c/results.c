/* The text of every result word, each with its word before it as the Rust package shows a refusal. */
#include <stdio.h>

#include "ruzkemp.h"

int main(void)
{
    unsigned long word;
    for (word = 0; word <= 0xFFFF; word++)
        printf("%04lXh: %s\n", word, ruzkemp_result_text((uint16_t)word));
    return 0;
}
