/* Just enough of the kernel's headers for lib/bch.c in user space. bench/lib.sh lets each header that lib/bch.c includes name this file. */
#ifndef KERNEL_STUB_H
#define KERNEL_STUB_H
#include <endian.h>
#include <stdbool.h>
#include <stdint.h>
#include <stdlib.h>
#include <string.h>

typedef uint8_t u8;
typedef uint16_t u16;
typedef uint32_t u32;
typedef uint64_t u64;
#define EINVAL 22
#define EBADMSG 74
#define GFP_KERNEL 0
#define KERN_ERR ""
#define kmalloc(n, flags) malloc(n)
#define kzalloc(n, flags) calloc(1, n)
#define kfree(p) free(p)
#define printk(...) ((void)0)
#define WARN_ON(x) (x)
#define DIV_ROUND_UP(a, b) (((a) + (b) - 1) / (b))
#define ARRAY_SIZE(a) (sizeof(a) / sizeof((a)[0]))
#define EXPORT_SYMBOL_GPL(x)
#define MODULE_LICENSE(x)
#define MODULE_AUTHOR(x)
#define MODULE_DESCRIPTION(x)
#define cpu_to_be32(x) htobe32(x)
#define swap(a, b) do { __typeof__(a) held = (a); (a) = (b); (b) = held; } while (0)

static inline int fls(unsigned x)
{
    return x ? 32 - __builtin_clz(x) : 0;
}

static inline u8 bitrev8(u8 b)
{
    b = (u8)((b & 0xF0) >> 4 | (b & 0x0F) << 4);
    b = (u8)((b & 0xCC) >> 2 | (b & 0x33) << 2);
    return (u8)((b & 0xAA) >> 1 | (b & 0x55) << 1);
}
#endif
