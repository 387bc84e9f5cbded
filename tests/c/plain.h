/* The calls of the header once more, written in plain C straight after document 01: what the archive is compared with.
 * plain_NAME has the prototype of pv_NAME. */
#ifndef PLAIN_H
#define PLAIN_H

#include <pivatsohy.h>

__typeof__(pv_manifest_check) plain_manifest_check;
__typeof__(pv_library_check) plain_library_check;
__typeof__(pv_cache_size) plain_cache_size;
__typeof__(pv_cache_prepare) plain_cache_prepare;
__typeof__(pv_cache_open) plain_cache_open;
__typeof__(pv_resident_build) plain_resident_build;
__typeof__(pv_search_cached) plain_search_cached;
__typeof__(pv_search_cached_ids) plain_search_cached_ids;
__typeof__(pv_search_resident) plain_search_resident;
__typeof__(pv_search_resident_ids) plain_search_resident_ids;
__typeof__(pv_agreement_cached) plain_agreement_cached;
__typeof__(pv_agreement_cached_ids) plain_agreement_cached_ids;
__typeof__(pv_agreement_resident) plain_agreement_resident;
__typeof__(pv_agreement_resident_ids) plain_agreement_resident_ids;
__typeof__(pv_distance_four) plain_distance_four;
__typeof__(pv_records) plain_records;

/* CRC-32 of document 01, a bit at a time. */
uint32_t plain_crc(const uint8_t *bytes, size_t count);

/* A little-endian number of up to 8 bytes. */
uint64_t plain_number(const uint8_t *bytes, size_t count);
void plain_put(uint8_t *bytes, size_t count, uint64_t value);

#endif
