/* What every kernel has.
 *
 * A kernel is one function of C that works for a given number of rounds and gives a checksum. It sets up all that it reads by itself, so it
 * gives the same checksum each time; with 0 rounds it gives 0 at once. The same source is compiled for the guest and for this machine.
 */
typedef unsigned char u8;
typedef unsigned short u16;
typedef unsigned int u32;
typedef unsigned long u64;
typedef int i32;
typedef long i64;

u64 kernel(u64 rounds);

/* Numbers that look like chance and are the same everywhere. */
static inline u32 chance(u64 *seed) {
    *seed = *seed * 6364136223846793005ul + 1442695040888963407ul;
    return (u32)(*seed >> 33);
}
