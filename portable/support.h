/* p11's library for C as C99, made by portable/translate of the LLVM module that the toolchain made of the proved crate; not for
 * reading. It wants an 8-bit byte, little-endian memory, and of the compiler that a number which is too large for a signed type
 * loses its high bits, and that a shift of a negative one to the right keeps its sign: gcc, clang and tcc say so. What it stands on
 * begins here, and all lines behind it are made. */
#include <stddef.h>
#include <stdint.h>
#include <stdlib.h>
#include <string.h>

#if defined(__BYTE_ORDER__) && defined(__ORDER_LITTLE_ENDIAN__) && __BYTE_ORDER__ != __ORDER_LITTLE_ENDIAN__
#error "p11 wants a little-endian machine"
#endif

/* In a proved function gcc warns of a whole word before a text of 2 to 4 bytes, in a loop that the text's length doesn't let it enter. */
#if defined(__GNUC__) && !defined(__clang__) && !defined(__TINYC__)
#pragma GCC diagnostic ignored "-Warray-bounds"
#endif

typedef uint8_t u8;
typedef uint16_t u16;
typedef uint32_t u32;
typedef uint64_t u64;
typedef int8_t s8;
typedef int16_t s16;
typedef int32_t s32;
typedef int64_t s64;
typedef u8 *P;

#if defined(__GNUC__) && !defined(__TINYC__)
#define TRAP() __builtin_trap()
#define UNREACHABLE() __builtin_unreachable()
#define IN static inline __attribute__((always_inline, unused))
#else
#define TRAP() abort()
#define UNREACHABLE() abort()
#define IN static inline
#endif
#if defined(__GNUC__) || defined(__TINYC__)
#define ALIGNED(n) __attribute__((aligned(n)))
#else
#define ALIGNED(n)
#endif
typedef struct { u64 v[2]; } ALIGNED(16) A16;

/* A pointer as a number, and in memory, has 64 bits on each machine. */
IN u64 adr(P p) { return (uintptr_t)p; }
#if UINTPTR_MAX > 0xffffffffU
#define SLOT(name) P name;
#define SLOT_OF(value) value
#else
#define SLOT(name) P name; u32 name##h;
#define SLOT_OF(value) value, 0
#endif

/* Numbers in memory: of 1, 2, 4, 8 and 16 bytes, and of any other number of them below 8, or from 9 to 15. */
#define MEMORY(n)                                                                 \
    IN u##n ld##n(const u8 *p) { u##n v; memcpy(&v, p, sizeof v); return v; }     \
    IN void st##n(u8 *p, u##n v) { memcpy(p, &v, sizeof v); }
MEMORY(8)
MEMORY(16)
MEMORY(32)
MEMORY(64)
IN u64 ldn(const u8 *p, int n) { u64 v = 0; memcpy(&v, p, (size_t)n); return v; }
IN void stn(u8 *p, u64 v, int n) { memcpy(p, &v, (size_t)n); }
#if UINTPTR_MAX > 0xffffffffU
IN P ldp(const u8 *p) { P v; memcpy(&v, p, sizeof v); return v; }
IN void stp(u8 *p, P v) { memcpy(p, &v, sizeof v); }
#else
IN P ldp(const u8 *p) { return (P)(uintptr_t)ld32(p); }
IN void stp(u8 *p, P v) { st64(p, (uintptr_t)v); }
#endif

/* Numbers of 128 bits: h is the higher half. */
#ifdef __SIZEOF_INT128__
typedef unsigned __int128 w128;
IN w128 mk128(u64 h, u64 l) { return (w128)h << 64 | l; }
IN u64 hi128(w128 a) { return (u64)(a >> 64); }
IN u64 lo128(w128 a) { return (u64)a; }
IN w128 add128(w128 a, w128 b) { return a + b; }
IN w128 sub128(w128 a, w128 b) { return a - b; }
IN w128 mul128(w128 a, w128 b) { return a * b; }
IN w128 shl128(w128 a, unsigned n) { return a << n; }
IN w128 lshr128(w128 a, unsigned n) { return a >> n; }
#else
typedef struct { u64 l, h; } w128;
IN w128 mk128(u64 h, u64 l) { w128 v; v.l = l; v.h = h; return v; }
IN u64 hi128(w128 a) { return a.h; }
IN u64 lo128(w128 a) { return a.l; }
IN w128 add128(w128 a, w128 b) { u64 l = a.l + b.l; return mk128(a.h + b.h + (l < a.l), l); }
IN w128 sub128(w128 a, w128 b) { return mk128(a.h - b.h - (a.l < b.l), a.l - b.l); }
IN w128 mul128(w128 a, w128 b) {
    u64 m = 0xffffffff, a0 = a.l & m, a1 = a.l >> 32, b0 = b.l & m, b1 = b.l >> 32;
    u64 low = a0 * b0, one = a1 * b0, two = a0 * b1, middle = (low >> 32) + (one & m) + (two & m);
    return mk128(a1 * b1 + (one >> 32) + (two >> 32) + (middle >> 32) + a.l * b.h + a.h * b.l, (low & m) | middle << 32);
}
IN w128 shl128(w128 a, unsigned n) {
    return n == 0 ? a : n < 64 ? mk128(a.h << n | a.l >> (64 - n), a.l << n) : mk128(a.l << (n - 64), 0);
}
IN w128 lshr128(w128 a, unsigned n) {
    return n == 0 ? a : n < 64 ? mk128(a.h >> n, a.l >> n | a.h << (64 - n)) : mk128(0, a.h >> (n - 64));
}
#endif
IN w128 zx128(u64 a) { return mk128(0, a); }
IN w128 sx128(s64 a) { return mk128(a < 0 ? ~(u64)0 : 0, (u64)a); }
IN w128 and128(w128 a, w128 b) { return mk128(hi128(a) & hi128(b), lo128(a) & lo128(b)); }
IN w128 or128(w128 a, w128 b) { return mk128(hi128(a) | hi128(b), lo128(a) | lo128(b)); }
IN w128 xor128(w128 a, w128 b) { return mk128(hi128(a) ^ hi128(b), lo128(a) ^ lo128(b)); }
IN w128 ashr128(w128 a, unsigned n) {
    w128 ones = mk128(~(u64)0, ~(u64)0);
    return n == 0 || hi128(a) >> 63 == 0 ? lshr128(a, n) : or128(lshr128(a, n), shl128(ones, 128 - n));
}
IN int eq128(w128 a, w128 b) { return hi128(a) == hi128(b) && lo128(a) == lo128(b); }
IN int ult128(w128 a, w128 b) { return hi128(a) != hi128(b) ? hi128(a) < hi128(b) : lo128(a) < lo128(b); }
IN int slt128(w128 a, w128 b) { return hi128(a) != hi128(b) ? (s64)hi128(a) < (s64)hi128(b) : lo128(a) < lo128(b); }
IN int ne128(w128 a, w128 b) { return !eq128(a, b); }
IN int ugt128(w128 a, w128 b) { return ult128(b, a); }
IN int ule128(w128 a, w128 b) { return !ult128(b, a); }
IN int uge128(w128 a, w128 b) { return !ult128(a, b); }
IN int sgt128(w128 a, w128 b) { return slt128(b, a); }
IN int sle128(w128 a, w128 b) { return !slt128(b, a); }
IN int sge128(w128 a, w128 b) { return !slt128(a, b); }
IN w128 umin128(w128 a, w128 b) { return ult128(a, b) ? a : b; }
IN w128 umax128(w128 a, w128 b) { return ult128(a, b) ? b : a; }
IN w128 ld128(const u8 *p) { return mk128(ld64(p + 8), ld64(p)); }
IN void st128(u8 *p, w128 v) { st64(p, lo128(v)); st64(p + 8, hi128(v)); }
IN w128 ldw(const u8 *p, int n) { return mk128(ldn(p + 8, n - 8), ld64(p)); }
IN void stw(u8 *p, w128 v, int n) { st64(p, lo128(v)); stn(p + 8, hi128(v), n - 8); }

/* LLVM's functions of numbers. */
#define NUMBERS(n)                                                                                                    \
    IN u##n umin##n(u##n a, u##n b) { return a < b ? a : b; }                                                         \
    IN u##n umax##n(u##n a, u##n b) { return a < b ? b : a; }                                                         \
    IN u##n smin##n(u##n a, u##n b) { return (s##n)a < (s##n)b ? a : b; }                                             \
    IN u##n smax##n(u##n a, u##n b) { return (s##n)a < (s##n)b ? b : a; }                                             \
    IN u##n abs##n(u##n a) { return (s##n)a < 0 ? (u##n)(0 - a) : a; }                                                \
    IN u##n usub_sat##n(u##n a, u##n b) { return a < b ? 0 : (u##n)(a - b); }                                         \
    IN u##n uadd_sat##n(u##n a, u##n b) { u##n c = (u##n)(a + b); return c < a ? (u##n)-1 : c; }                      \
    IN u##n fshl##n(u##n a, u##n b, u##n c) { c &= n - 1; return c ? (u##n)((u64)a << c | (u64)b >> (n - c)) : a; }   \
    IN u##n fshr##n(u##n a, u##n b, u##n c) { c &= n - 1; return c ? (u##n)((u64)a << (n - c) | (u64)b >> c) : b; }   \
    IN u##n ctpop##n(u##n a) { u##n c = 0; for (; a; a &= (u##n)(a - 1)) c++; return c; }                             \
    IN u##n cttz##n(u##n a) { u##n c = 0; if (!a) return n; COUNT_LOW(a, c) return c; }                               \
    IN u##n ctlz##n(u##n a) { u##n c = 0; if (!a) return n; COUNT_HIGH(a, c, n) return c; }                           \
    IN u##n bswap##n(u##n a) { u##n c = 0; int i; for (i = 0; i < n; i += 8) c |= (u##n)((a >> i & 255) << (n - 8 - i)); return c; }
#if defined(__GNUC__) && !defined(__TINYC__)
#define COUNT_LOW(a, c) c += (u8)__builtin_ctzll(a);
#define COUNT_HIGH(a, c, n) c += (u8)(__builtin_clzll(a) - (64 - n));
#else
#define COUNT_LOW(a, c) while (!(a >> c & 1)) c++;
#define COUNT_HIGH(a, c, n) while (!(a >> (n - 1 - c) & 1)) c++;
#endif
NUMBERS(8)
NUMBERS(16)
NUMBERS(32)
NUMBERS(64)

/* Rows of bytes. */
#define VECTOR(n)                                                                                                            \
    struct v##n { u8 e[n]; };                                                                                                \
    IN struct v##n ld_v##n(const u8 *p) { struct v##n v; memcpy(&v, p, n); return v; }                                       \
    IN void st_v##n(u8 *p, struct v##n v) { memcpy(p, &v, n); }                                                              \
    IN u##n bits_v##n(struct v##n a) { u##n m = 0; int i; for (i = 0; i < n; i++) m |= (u##n)((u##n)a.e[i] << i); return m; }

/* What the library asks of its host: memory, in blocks of malloc's. */
#define HEAP(tried)                                                                                                        \
    IN tried told(void *p) { tried t; t.m0 = p != 0; t.m1 = p ? (u64)(uintptr_t)p : 16; return t; }                        \
    IN int fits(u64 n) { return n <= SIZE_MAX / 2; }                                                                       \
    IN tried rattle_alloc(u64 n, u64 align) { (void)align; return told(fits(n) ? malloc(n ? (size_t)n : 1) : 0); }         \
    IN tried rattle_realloc(P p, u64 kept, u64 n, u64 align) {                                                             \
        (void)kept; (void)align;                                                                                           \
        return told(fits(n) ? realloc(p, n ? (size_t)n : 1) : 0);                                                          \
    }                                                                                                                      \
    IN void rattle_dealloc(P p) { free(p); }
