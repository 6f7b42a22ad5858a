/* The match device: a title's fingerprint (8 bytes at 0, read only), a candidate (8 at 0x20) and whether the two are equal (1 byte at
 * 0x28, read only). Bytes may be read and written at any offset and width; the rest of its page reads 0 and takes no write. */
#include "hypervisor.h"

u64 device_read(struct guest *g, u64 gpa, u64 bytes) {
    u64 at = gpa - GUEST_DEVICE, n = 0;
    struct match_device *d = &g->device;
    for (u64 i = 0; i < bytes; i++) {
        u64 byte = at + i < 8 ? d->fingerprint >> 8 * (at + i)
                 : at + i - 0x20 < 8 ? d->candidate >> 8 * (at + i - 0x20)
                 : at + i == 0x28 ? d->fingerprint == d->candidate : 0;
        n |= (byte & 0xff) << 8 * i;
    }
    return n;
}

void device_write(struct guest *g, u64 gpa, u64 bytes, u64 data) {
    for (u64 i = 0; i < bytes; i++) {
        u64 at = gpa - GUEST_DEVICE + i - 0x20;
        if (at >= 8) continue;
        g->device.candidate &= ~(0xffull << 8 * at);
        g->device.candidate |= (data >> 8 * i & 0xff) << 8 * at;
    }
}
