/* The frame reader of Zinniaspoon, for programs in C and C++.
 * Link libframe.a; README.md has the line. */
#ifndef LINX_FRAME_H
#define LINX_FRAME_H

#include <stddef.h>
#include <stdint.h>

#ifdef __cplusplus
extern "C" {
#endif

/* What a frame is. */
enum linx_kind {
    LINX_CONNECT = 1,
    LINX_CONNECT_ACK = 2,
    LINX_CONN_ACK = 3, /* the ACK of a CONN frame: the third step of connecting */
    LINX_RESET = 4,
    LINX_ACK = 5,
    LINX_NACK = 6,
    LINX_UDATA = 7,
    LINX_FRAG = 8
};

/* Why bytes are no frame. */
enum linx_cause {
    LINX_SHORT = 20,    /* fewer bytes than four, or than the packet size */
    LINX_VERSION = 21,  /* Ver is not 3 */
    LINX_RESERVED = 22, /* a reserved bit is set */
    LINX_NEXT = 23,     /* Next names no header that may follow */
    LINX_SIZE = 24,     /* the packet size fits no frame of this form */
    LINX_RANGE = 25     /* a field lies outside its range */
};

/* Reads the frame at the front of `length` bytes; what lies behind its packet size is ignored.
 * Answers its kind, or cause * 256 + place, where place is the byte at which the header at fault begins (0, 4 or 8).
 * `bytes` may be NULL where `length` is 0. Nothing is written or kept. */
uint32_t linx_frame_read(const uint8_t *bytes, size_t length);

/* The answer taken apart. */
static inline int linx_is_fault(uint32_t answer) { return answer > 255; }
static inline uint32_t linx_cause_of(uint32_t answer) { return answer / 256; }
static inline uint32_t linx_place_of(uint32_t answer) { return answer % 256; }

#ifdef __cplusplus
}
#endif

#endif
