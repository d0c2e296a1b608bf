/* accessors.h: vhart_get and vhart_put beside bytes written by hand, in C and in C++: an image at
 * each distance from a multiple of 8, and what stands around it. */
#ifndef ACCESSORS_H
#define ACCESSORS_H

#include "vhart.h"

static inline int are_accessors_right(void)
{
    static const uint8_t image[16] = {0x01, 0x23, 0x45, 0x67, 0x89, 0xAB, 0xCD, 0xEF,
                                      0xFE, 0xDC, 0xBA, 0x98, 0x76, 0x54, 0x32, 0x10};
    static const uint8_t put[8] = {0x11, 0x22, 0x33, 0x44, 0x55, 0x66, 0x77, 0x88};
    for (size_t off = 0; off < 8; off++) {
        uint8_t room[32], expected[32];
        for (size_t i = 0; i < 32; i++) {
            room[i] = off <= i && i < off + 16 ? image[i - off] : 0xA5;
            expected[i] = off + 8 <= i && i < off + 16 ? put[i - off - 8] : room[i];
        }
        if (vhart_get(room + off, 0) != UINT64_C(0xEFCDAB8967452301)) return 0;
        if (vhart_get(room + off, 1) != UINT64_C(0x1032547698BADCFE)) return 0;
        vhart_put(room + off, 1, UINT64_C(0x8877665544332211));
        for (size_t i = 0; i < 32; i++) {
            if (room[i] != expected[i]) return 0;
        }
    }
    return 1;
}

#endif
