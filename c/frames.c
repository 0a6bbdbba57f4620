/* Reads worked frames and faulty ones through the C entry, and fails loudly on a wrong answer. */
#include <stdio.h>
#include <stdlib.h>
#include <string.h>

#include "linx_frame.h"

#define FAULT(cause, place) ((cause) * 256 + (place))

/* A frame in hexadecimal, and the answer it must get. */
struct line {
    const char *hex;
    uint32_t answer;
    const char *what;
};

static const struct line lines[] = {
    {"16000008F1500001", LINX_CONNECT, "CONNECT, exponent 5, number 1"},
    {"16010008F2300001", LINX_CONNECT_ACK, "CONNECT_ACK to 1, exponent 3, number 1"},
    {"16010008F3000001", LINX_CONN_ACK, "connect ACK to 1, number 1"},
    {"16010008F4000000", LINX_RESET, "RESET to 1"},
    {"46070008F8005009", LINX_ACK, "ACK to 7 that asks for an answer"},
    {"4607000C50005000F0020005", LINX_NACK, "NACK to 7, two from 5"},
    {"4601001620000000F0007FFF0000000000030004AABB", LINX_UDATA, "AA BB from 4 to 3"},
    {"4601001620000000F0007FFF0000000000030004AABB000000000000000000000000000000000000000000000000", LINX_UDATA,
     "the same with 24 zeros behind"},
    {"4601000D30000001F0000001CC", LINX_FRAG, "a last piece of one byte"},

    {"", FAULT(LINX_SHORT, 0), "no bytes"},
    {"160000", FAULT(LINX_SHORT, 0), "three bytes"},
    {"16000008F15000", FAULT(LINX_SHORT, 0), "a byte less than the packet size"},
    {"14000008F1500001", FAULT(LINX_VERSION, 0), "version 2"},
    {"17000008F1500001", FAULT(LINX_RESERVED, 0), "the first reserved bit of MAIN"},
    {"16000008F1500101", FAULT(LINX_RESERVED, 4), "a reserved bit of CONN"},
    {"46070008F9005009", FAULT(LINX_RESERVED, 4), "a reserved bit of ACK"},
    {"4607000C50005000F1020005", FAULT(LINX_RESERVED, 8), "a reserved bit of NACK"},
    {"4601001420000000F0007FFF0000000100030004", FAULT(LINX_RESERVED, 8), "a reserved bit of UDATA's second word"},
    {"4601000D30000001F0010001CC", FAULT(LINX_RESERVED, 8), "a reserved bit of FRAG"},
    {"26000008F1500001", FAULT(LINX_NEXT, 0), "UDATA behind MAIN"},
    {"1600000821500001", FAULT(LINX_NEXT, 4), "a header behind CONN"},
    {"4607000840005009", FAULT(LINX_NEXT, 4), "ACK behind ACK"},
    {"4607000C5000500050020005", FAULT(LINX_NEXT, 8), "a header behind NACK"},
    {"16000007F1500001", FAULT(LINX_SIZE, 4), "CONN does not fit the size"},
    {"46070009F800500900", FAULT(LINX_SIZE, 4), "a byte left over behind ACK"},
    {"4607000B50005000F0020005", FAULT(LINX_SIZE, 8), "NACK does not fit the size"},
    {"4601000C30000001F0000001", FAULT(LINX_SIZE, 8), "a FRAG without payload"},
    {"46000008F8005009", FAULT(LINX_RANGE, 0), "ACK to number 0"},
    {"16000008F1600001", FAULT(LINX_RANGE, 4), "exponent 6"},
    {"4607000C50005000F0200005", FAULT(LINX_RANGE, 8), "a gap of 32 pieces"},
};

static unsigned char nibble(char c) { return (unsigned char)(c <= '9' ? c - '0' : c - 'A' + 10); }

static uint32_t read_hex(const char *hex) {
    uint8_t bytes[64];
    size_t length = strlen(hex) / 2;
    if (length > sizeof bytes) {
        fprintf(stderr, "frames: a line is too long: %s\n", hex);
        exit(2);
    }
    for (size_t i = 0; i < length; i++)
        bytes[i] = (uint8_t)(nibble(hex[2 * i]) << 4 | nibble(hex[2 * i + 1]));
    /* An exact copy on the heap, so that a read past its end is noticed. */
    uint8_t *exact = malloc(length > 0 ? length : 1);
    if (exact == NULL) {
        fprintf(stderr, "frames: no memory\n");
        exit(2);
    }
    memcpy(exact, bytes, length);
    uint32_t answer = linx_frame_read(exact, length);
    free(exact);
    return answer;
}

int main(void) {
    size_t count = sizeof lines / sizeof lines[0];
    int wrong = 0;
    for (size_t i = 0; i < count; i++) {
        uint32_t answer = read_hex(lines[i].hex);
        if (answer != lines[i].answer) {
            fprintf(stderr, "frames: %s: answered %u, expected %u\n", lines[i].what, answer, lines[i].answer);
            wrong++;
        }
    }
    uint32_t none = linx_frame_read(NULL, 0);
    if (!linx_is_fault(none) || linx_cause_of(none) != LINX_SHORT || linx_place_of(none) != 0) {
        fprintf(stderr, "frames: NULL: answered %u\n", none);
        wrong++;
    }
    if (wrong == 0) printf("c/frames: %zu answers as expected\n", count + 1);
    return wrong == 0 ? 0 : 1;
}
