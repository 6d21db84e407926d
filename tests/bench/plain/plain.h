/*
 * The calls of include/cinder.h once more, as plain C without proofs: what the archive
 * is measured against. Same answers, same buffers.
 */
#ifndef PLAIN_H
#define PLAIN_H

#include "cinder.h"

cinder_packet_result plain_packet_decode(const uint8_t *bytes, size_t bytes_len,
                                         uint8_t *message, size_t message_len);

cinder_list_result plain_list_decode(const uint8_t *bytes, size_t bytes_len,
                                     uint8_t *rows, size_t rows_len,
                                     uint8_t *store, size_t store_len);

cinder_list_result plain_stream_next(const uint8_t *bytes, size_t bytes_len, uint64_t offset,
                                     uint8_t *rows, size_t rows_len,
                                     uint8_t *store, size_t store_len);

cinder_write_result plain_packet_encode(uint64_t type, const uint8_t *payload, size_t payload_len,
                                        uint8_t *packet, size_t packet_len);

cinder_line_result plain_line_push(uint8_t *line, size_t line_len,
                                   const uint8_t *bytes, size_t bytes_len,
                                   uint8_t *packet, size_t packet_len);

/* The list calls once more, tuned by hand. */
cinder_list_result tuned_list_decode(const uint8_t *bytes, size_t bytes_len,
                                     uint8_t *rows, size_t rows_len,
                                     uint8_t *store, size_t store_len);

cinder_list_result tuned_stream_next(const uint8_t *bytes, size_t bytes_len, uint64_t offset,
                                     uint8_t *rows, size_t rows_len,
                                     uint8_t *store, size_t store_len);

#endif
