// Sets a policy, prints its rules, and asks it.
#include "policies.h"

#include <string.h>

#include "address.h"
#include "out.h"
#include "unmavreth_words.h"

unmavreth_rule rule_of(const char *source, uint8_t source_len, const char *destination, uint8_t destination_len)
{
    unmavreth_address from = address(source);
    unmavreth_address to = address(destination);
    unmavreth_rule rule = {.family = from.family, .source_len = source_len, .destination_len = destination_len};
    memcpy(rule.source, from.octets, sizeof rule.source);
    memcpy(rule.destination, to.octets, sizeof rule.destination);
    return rule;
}

static void print_rule(const unmavreth_rule *r)
{
    char source[ADDRESS_TEXT], destination[ADDRESS_TEXT];
    address_text(source, r->family, r->source);
    address_text(destination, r->family, r->destination);
    out("    from %s/%u to %s/%u\n", source, r->source_len, destination, r->destination_len);
}

void set_policy(day *d, const char *name, uint16_t count, const unmavreth_rules *rules)
{
    uint8_t number = gateway_set_policy(&d->gateway, count, rules);
    const unmavreth_policy *policy = &d->gateway.policies.of[d->gateway.operator_id];
    out("  Set %s, answer %u: %s\n", name, number, unmavreth_number_words(number));
    for (size_t i = 0; i < policy->count; i++)
        print_rule(&policy->rules[i]);
    check_number(&d->checks, "setting the policy", number, UNMAVRETH_DONE);
    check_number(&d->checks, "the policy's count", policy->count, count);
}

void ask_policy(day *d, const char *place, unmavreth_pair pair, bool expected)
{
    char text[PAIR_TEXT];
    pair_text(text, &pair);
    bool accepts = gateway_accepts(&d->gateway, pair);
    out("    %-8s %-52s %s\n", place, text, accepts ? "yes" : "no");
    check_number(&d->checks, "whether the pair is acceptable", accepts, expected);
}
