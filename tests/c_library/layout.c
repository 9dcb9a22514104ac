/* Sizes and offsets of the structs of rpkirtr.h, asserted at compile time by C and C++ compilers. */
#include "rpkirtr.h"

#define IS(name, condition) typedef char name[(condition) ? 1 : -1]
#define AT(type, member, place) IS(type##_##member##_at, offsetof(type, member) == (place))

IS(record_size, sizeof(rpkirtr_record) == 24);
AT(rpkirtr_record, addr, 0);
AT(rpkirtr_record, asn, 16);
AT(rpkirtr_record, family, 20);
AT(rpkirtr_record, len, 21);
AT(rpkirtr_record, max_len, 22);
AT(rpkirtr_record, zero_, 23);

IS(route_size, sizeof(rpkirtr_route) == 24);
AT(rpkirtr_route, addr, 0);
AT(rpkirtr_route, origin, 16);
AT(rpkirtr_route, family, 20);
AT(rpkirtr_route, len, 21);
AT(rpkirtr_route, has_origin, 22);
AT(rpkirtr_route, zero_, 23);

IS(link_size, sizeof(rpkirtr_link) == 4);
AT(rpkirtr_link, state, 0);
AT(rpkirtr_link, end, 1);
AT(rpkirtr_link, code, 2);

IS(committed_size, sizeof(rpkirtr_committed) == 32);
AT(rpkirtr_committed, moment, 0);
AT(rpkirtr_committed, serial, 8);
AT(rpkirtr_committed, refresh, 12);
AT(rpkirtr_committed, retry, 16);
AT(rpkirtr_committed, expire, 20);
AT(rpkirtr_committed, zero_, 24);
AT(rpkirtr_committed, session, 28);
AT(rpkirtr_committed, version, 30);
AT(rpkirtr_committed, is_committed, 31);

IS(config_size, sizeof(rpkirtr_config) == 24);
AT(rpkirtr_config, size_, 0);
AT(rpkirtr_config, refresh, 4);
AT(rpkirtr_config, retry, 8);
AT(rpkirtr_config, expire, 12);
AT(rpkirtr_config, most, 16);
AT(rpkirtr_config, keeps_refresh, 20);
AT(rpkirtr_config, keeps_retry, 21);
AT(rpkirtr_config, keeps_expire, 22);
AT(rpkirtr_config, zero_, 23);

IS(carried_size, sizeof(rpkirtr_carried) == 168);
AT(rpkirtr_carried, bytes, 0);
AT(rpkirtr_carried, pdus, 8);
AT(rpkirtr_carried, text, 96);
AT(rpkirtr_carried, code, 160);
AT(rpkirtr_carried, has_report, 162);
AT(rpkirtr_carried, zero_, 163);

IS(traffic_size, sizeof(rpkirtr_traffic) == 344);
AT(rpkirtr_traffic, size_, 0);
AT(rpkirtr_traffic, zero_, 4);
AT(rpkirtr_traffic, received, 8);
AT(rpkirtr_traffic, sent, 176);

IS(text_size, sizeof(rpkirtr_text) == 64);
AT(rpkirtr_text, text, 0);

IS(list_size, sizeof(rpkirtr_list) == 2 * sizeof(void *));
AT(rpkirtr_list, records, 0);
AT(rpkirtr_list, records_len, sizeof(void *));

IS(fault_size, sizeof(rpkirtr_fault) == 16);
AT(rpkirtr_fault, offset, 0);
AT(rpkirtr_fault, kind, 8);
AT(rpkirtr_fault, zero_, 12);

IS(digest_size, sizeof(rpkirtr_digest) == 32);
AT(rpkirtr_digest, octets, 0);

IS(router_size, sizeof(rpkirtr_router) == sizeof(void *));
IS(index_size, sizeof(rpkirtr_index) == sizeof(void *));
IS(roa_size, sizeof(rpkirtr_roa) == sizeof(void *));
IS(manifest_size, sizeof(rpkirtr_manifest) == sizeof(void *));
IS(cache_size, sizeof(rpkirtr_cache) == sizeof(void *));
IS(status_size, sizeof(rpkirtr_status) == 4);
IS(state_size, sizeof(rpkirtr_state) == 4);

int main(void)
{
    return 0;
}
