/* The header stands by itself, and may be included twice. A change has the bytes that the archive expects: an array of -1 does not
 * compile. */
#include "fiswalend.h"
#include "fiswalend.h"

typedef char change_has_16_bytes[sizeof(struct fpb_change) == 16 ? 1 : -1];
typedef char port_at_0[offsetof(struct fpb_change, port) == 0 ? 1 : -1];
typedef char part_at_4[offsetof(struct fpb_change, part) == 4 ? 1 : -1];
typedef char at_at_8[offsetof(struct fpb_change, at) == 8 ? 1 : -1];
typedef char old_byte_at_12[offsetof(struct fpb_change, old_byte) == 12 ? 1 : -1];
typedef char new_byte_at_13[offsetof(struct fpb_change, new_byte) == 13 ? 1 : -1];
