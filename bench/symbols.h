/* The codec on symbols as 16-bit numbers, for the benchmark of the codec: crates/bench_api/out/libbench_api.a. The same answers as
 * hb_encode's and hb_decode's; lengths of traces count symbols. */
#ifndef SYMBOLS_H
#define SYMBOLS_H

#include "headboarded.h"

hb_written hb_encode_symbols(uint8_t protocol, uint8_t pec, uint8_t address, uint8_t direction, uint8_t command,
                             const uint8_t *sent, size_t sent_len, const uint8_t *received, size_t received_len,
                             uint16_t *out, size_t out_len);
hb_decoded hb_decode_symbols(uint8_t protocol, uint8_t pec, const uint16_t *trace, size_t trace_len,
                             uint8_t *sent, size_t sent_len, uint8_t *received, size_t received_len);

#endif
