/* The hypervisor's main for one guest: Linux. examples/linux/run has qemu put the three files into memory. */
#include "hypervisor.h"

#define KERNEL 0xa0000000ull /* host physical, where run says that they lie */
#define INITRD 0xa8000000ull
#define TREE 0xa9000000ull
/* Behind GUEST_RAM, as guest.dts has them. */
enum { RAM_SIZE = 256 << 20, KERNEL_AT = 0x200000, INITRD_AT = 0x8000000, TREE_AT = 0x7000000 };

extern const char kernel_size[], initrd_size[], tree_size[]; /* numbers that run gives the linker */

void main(u64 hart) {
    static struct guest g;
    boot(hart);
    make(&g, 'L', 0, 0, RAM_SIZE);
    memcpy(g.ram + KERNEL_AT, (void *)KERNEL, (u64)kernel_size);
    memcpy(g.ram + INITRD_AT, (void *)INITRD, (u64)initrd_size);
    memcpy(g.ram + TREE_AT, (void *)TREE, (u64)tree_size);
    vcpu_set_entry(&g.v, GUEST_RAM + KERNEL_AT);
    vcpu_set_gpr(&g.v, 11, GUEST_RAM + TREE_AT); /* a1; a0 is hart 0 */
    run(&g, 1, 1ull << 40);
    say("# Linux is down\n");
    stop();
}
