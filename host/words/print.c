// Prints the words that the C header has, in the order and form of words.txt.
#include <stdio.h>
#include <string.h>

#include "unmavreth_words.h"

typedef const char *words_of(uint8_t number);

// Each number whose words are not those of the last, which no call gives; and then those.
static void print_kind(const char *kind, words_of *words)
{
    const char *other = words(UINT8_MAX);
    for (unsigned number = 0; number <= UINT8_MAX; number++)
        if (strcmp(words((uint8_t)number), other) != 0)
            printf("%s %u %s\n", kind, number, words((uint8_t)number));
    printf("%s other %s\n", kind, other);
}

int main(void)
{
    print_kind("number", unmavreth_number_words);
    print_kind("update", unmavreth_update_words);
    print_kind("list", unmavreth_list_words);
    print_kind("outcome", unmavreth_outcome_words);
    for (unsigned type = 0; type <= UINT16_MAX; type++)
        if (unmavreth_notify_words((uint16_t)type) != NULL)
            printf("notify %u %s\n", type, unmavreth_notify_words((uint16_t)type));
    for (unsigned type = 0; type <= UINT8_MAX; type++)
        if (unmavreth_payload_words((uint8_t)type) != NULL)
            printf("payload %u %s\n", type, unmavreth_payload_words((uint8_t)type));
    return 0;
}
