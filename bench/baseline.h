/* Plain C for the same work, to compare with. Each file of it is compiled twice, by bench/plain.sh: the functions plain_.. work out
   the PEC bit by bit, the functions table_.. with a table of 256 numbers. */
#ifndef BASELINE_H
#define BASELINE_H

#include "headboarded.h"

#ifdef PEC_BY_TABLE
#define NAMED(name) table_##name
#else
#define NAMED(name) plain_##name
#endif

typedef uint8_t checker(const uint8_t *s, size_t n);
checker plain_pec, table_pec;

typedef hb_written encoder(uint8_t protocol, uint8_t pec, uint8_t address, uint8_t direction, uint8_t command,
                           const uint8_t *sent, size_t sent_len, const uint8_t *received, size_t received_len,
                           uint8_t *out, size_t out_len);
encoder plain_encode, table_encode;

typedef hb_decoded decoder(uint8_t protocol, uint8_t pec, const uint8_t *trace, size_t trace_len,
                           uint8_t *sent, size_t sent_len, uint8_t *received, size_t received_len);
decoder plain_decode, table_decode;

typedef hb_model runner(hb_pool occupied, uint8_t last, uint8_t *records, size_t records_len, uint8_t *bindings,
                        size_t bindings_len);
runner plain_run_model, table_run_model;

#endif
