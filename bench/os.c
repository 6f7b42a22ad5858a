/* What the toolchain's library os asks of C, for a program that reads standard input: it ships these for x86-64 alone. */
#include <errno.h>
#include <stdint.h>

uintptr_t rattle_arg_count(void) { return 1; }
intptr_t rattle_arg(uintptr_t i, unsigned char *to, uintptr_t size) { (void)i; (void)to; (void)size; return -1; }
int rattle_open_to_read(const unsigned char *path) { (void)path; errno = ENOENT; return -1; }
int rattle_errno(void) { return errno; }
void rattle_set_errno(int number) { errno = number; }
