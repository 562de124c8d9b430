// Drops what each call gives, one a line: a compiler warns at each of them (host/installed/check counts).
#include <unmavreth_host.h>

void drop(unmavreth_gateway *g, const unmavreth_opening *opening, const unmavreth_request *request,
          unmavreth_response *response, const unmavreth_draft *draft, unmavreth_message *message,
          const unmavreth_rules *rules, const unmavreth_seen *seen, const unmavreth_reply *reply,
          const unmavreth_check_response *checked, const unmavreth_clone_request *cloned, const uint64_t *slots,
          uint8_t *out, unmavreth_part b);

void drop(unmavreth_gateway *g, const unmavreth_opening *opening, const unmavreth_request *request,
          unmavreth_response *response, const unmavreth_draft *draft, unmavreth_message *message,
          const unmavreth_rules *rules, const unmavreth_seen *seen, const unmavreth_reply *reply,
          const unmavreth_check_response *checked, const unmavreth_clone_request *cloned, const uint64_t *slots,
          uint8_t *out, unmavreth_part b)
{
    unmavreth_interface();
    unmavreth_mark_deletion(&g->ike, 7, 0);
    unmavreth_clone(&g->ike, 7, 8, 0, b.start, b.octets, out, 0, 0);
    unmavreth_set_policy(&g->policies, 0, rules, 0);
    unmavreth_acceptable(&g->policies, request->pair, 0);
    unmavreth_open(&g->ike, g->ipsec, UNMAVRETH_IPSEC_PLACES, *opening);
    unmavreth_open_ipsec(&g->ike, g->ipsec, UNMAVRETH_IPSEC_PLACES, 1, 7, 0);
    unmavreth_close_ike(&g->ike, g->ipsec, UNMAVRETH_IPSEC_PLACES, 7, 0);
    unmavreth_close_ipsec(&g->ike, g->ipsec, UNMAVRETH_IPSEC_PLACES, 1, 0);
    unmavreth_read(0, b.start, b.octets);
    unmavreth_no_nats(b.start, b.octets, 0, 0);
    unmavreth_addresses(b.start, b.octets, seen->list);
    unmavreth_handle(&g->ike, g->ipsec, 0, &g->policies, 7, 0, request->pair, out, 0, out, 0, out, 0, 0, 0, out, 0, out,
                     0, 0);
    unmavreth_check(&g->ike, g->ipsec, UNMAVRETH_IPSEC_PLACES, 7, 0, 0, b.start, b.octets, 0);
    unmavreth_write(draft->ask, draft->pair, draft->addresses, out, 0, out, 0, out, 0, out, 0);
    unmavreth_assess(b.start, b.octets, 0, b.start, b.octets);
    unmavreth_read_entry(b.start, b.octets, 0);
    unmavreth_write_entry(0, slots, b.start, b.octets, out, 0);
    unmavreth_gateway_open(g, opening);
    unmavreth_gateway_open_ipsec(g, 1, 7, 0);
    unmavreth_gateway_close_ike(g, 7, 0);
    unmavreth_gateway_close_ipsec(g, 1, 0);
    unmavreth_gateway_set_policy(g, rules->rules, 1, 0);
    unmavreth_gateway_acceptable(g, request->pair, 0);
    unmavreth_gateway_handle(g, request, response);
    unmavreth_gateway_check(g, checked);
    unmavreth_gateway_mark_deletion(g, 7, 0);
    unmavreth_gateway_clone(g, cloned, response);
    unmavreth_write_clone_supported(message);
    unmavreth_write_clone(message);
    unmavreth_read_part(0, b);
    unmavreth_cookie_part(b, 0, 0);
    unmavreth_nat_value_part(b, 0);
    unmavreth_no_nats_part(b, seen);
    unmavreth_addresses_part(b, seen);
    unmavreth_write_draft(draft, message);
    unmavreth_write_check(reply, request, message);
    unmavreth_assess_part(b, 0, b);
    unmavreth_read_entry_part(b, 0);
    unmavreth_write_entry_part(0, slots, b, out);
}

void drop_redirects(unmavreth_redirects *record, unmavreth_redirect_data *data, uint8_t *out, unmavreth_part b,
                    unmavreth_part other);

void drop_redirects(unmavreth_redirects *record, unmavreth_redirect_data *data, uint8_t *out, unmavreth_part b,
                    unmavreth_part other)
{
    unmavreth_read_redirect(&b, &other, b.start, b.octets);
    unmavreth_read_redirected_from(&b, b.start, b.octets);
    unmavreth_read_redirect_supported(b.start, b.octets);
    unmavreth_write_redirect(1, b.start, b.octets, b.start, 0, out, 0);
    unmavreth_write_redirected_from(1, b.start, b.octets, out, 0);
    unmavreth_write_redirect_supported(out, 0);
    unmavreth_decide_redirect(&record->count, record->times, &b, 0, b.start, 0, 0, b.start, b.octets);
    unmavreth_read_redirect_part(b);
    unmavreth_read_redirected_from_part(b);
    unmavreth_read_redirect_supported_part(b);
    unmavreth_write_redirect_part(1, b, b, data);
    unmavreth_write_redirected_from_part(1, b, data);
    unmavreth_decide_redirect_part(record, 0, b, 0, b);
}
