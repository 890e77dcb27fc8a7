/* header.c: document 01's "Header" and "Action record". */
#include "inside.h"

/* "0 and number; place 2 bits, order 0, key 00, retransmitted, message 26; stamp; socket id", big-endian. */
void model_header(uint8_t *out, uint32_t place, bool again, uint32_t number, uint32_t message, uint32_t stamp,
                  uint32_t id)
{
    const uint32_t bits = bent(PlaceSwapped) ? (place & 1) << 1 | (place >> 1 & 1) : place & 3;
    const uint32_t words[4] = {number & 0x7fffffff,
                               bits << 30 | (uint32_t)again << (bent(FlagBit) ? 27 : 26) | (message & 0x3ffffff),
                               bent(StampBeforeMessage) ? id : stamp, bent(StampBeforeMessage) ? stamp : id};
    for (int i = 0; i < 16; i++)
        out[i] = (uint8_t)(words[i / 4] >> (bent(LittleEndian) ? i % 4 * 8 : 24 - i % 4 * 8));
}

/* "24 bytes, little-endian, no header" */
void write_record(uint8_t *out, const struct record *r)
{
    const uint64_t words[3] = {r->kind | r->flags << 8 | r->length << 16 | r->number << 32,
                               r->third | r->fourth << 32, r->time};
    for (int i = 0; i < 24; i++)
        out[i] = (uint8_t)(words[i / 8] >> i % 8 * 8);
}
