/* Each guest alone, and then both in turn. */
#include "hypervisor.h"

extern const unsigned char guest_plain[], guest_plain_end[], guest_compressed[], guest_compressed_end[];

enum { RAM_SIZE = 16 << 20 };

void main(u64 hart) {
    static struct guest plain, compressed, both[2];
    boot(hart);
    make(&plain, 'P', guest_plain, guest_plain_end, RAM_SIZE), run(&plain, 1, 1ull << 40);
    make(&compressed, 'C', guest_compressed, guest_compressed_end, RAM_SIZE), run(&compressed, 1, 1ull << 40);
    make(&both[0], 'p', guest_plain, guest_plain_end, RAM_SIZE);
    make(&both[1], 'c', guest_compressed, guest_compressed_end, RAM_SIZE);
    both[1].htimedelta = 1ull << 40; /* its clock is ahead */
    run(both, 2, 2000);
    say("# all guests are down\n");
    stop();
}
