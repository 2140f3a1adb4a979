/* The work of some calls of lpt.h and lpt_end.h, in plain C. */
#ifndef PLAIN_H
#define PLAIN_H

#include "lpt.h"

/* Makes the checksum's tables. */
void plain_begin(void);

uint16_t plain_crc16(const uint8_t *octets, size_t len);
uint32_t plain_read_packet(const uint8_t *octets, size_t len, LptPacket *out);
uint32_t plain_write_packet(uint32_t kind, uint16_t apid, uint16_t count, const uint8_t *field,
                            size_t field_len, uint8_t *out, size_t out_len, size_t *needed);

/* Ground's end, which joins parts of p octets: what becomes of a packet, as lpt_end_packet tells,
   with the same tests; the message that was released last. */
typedef struct PlainEnd PlainEnd;
PlainEnd *plain_end_new(uint16_t apid, uint32_t p);
void plain_end_free(PlainEnd *end);
uint32_t plain_end_packet(PlainEnd *end, const uint8_t *octets, size_t len);
void plain_end_retire(PlainEnd *end, uint16_t id);
const uint8_t *plain_end_released(const PlainEnd *end, size_t *len);

#endif
