/* What glibc tells of the processor from 2.33 on, for a released program that also runs on older ones. The program asks at its
 * start whether the processor is an x86-64-v2, and tells and ends where it isn't; nothing else that it asks for is said to be
 * there, so it takes the code that each such processor has. */

/* A part of what the instruction CPUID answers, in EAX, EBX, ECX, EDX: as the processor has it, and as a program may use it. */
struct cpuid_feature {
    unsigned has[4];
    unsigned active[4];
};

/* The numbers that glibc gives to parts: what CPUID answers to 1, and to 0x80000001. */
enum { BASIC = 0, EXTENDED = 2 };

/* Of ECX, what an x86-64-v2 has: SSE3, SSSE3, CMPXCHG16B, SSE4.1, SSE4.2, POPCNT; and LAHF with SAHF. */
enum { BASIC_V2 = 1 << 0 | 1 << 9 | 1 << 13 | 1 << 19 | 1 << 20 | 1 << 23, EXTENDED_V2 = 1 << 0 };

static struct cpuid_feature basic, extended, none;

static const struct cpuid_feature *ask(struct cpuid_feature *part, unsigned number, unsigned bits) {
    unsigned *to = part->has;
    __asm__("cpuid" : "=a"(to[0]), "=b"(to[1]), "=c"(to[2]), "=d"(to[3]) : "a"(number), "c"(0));
    part->active[2] = to[2] & bits;
    return part;
}

extern const struct cpuid_feature *__x86_get_cpuid_feature_leaf(unsigned part);

const struct cpuid_feature *__x86_get_cpuid_feature_leaf(unsigned part) {
    if (part == BASIC) return ask(&basic, 1, BASIC_V2);
    if (part == EXTENDED) return ask(&extended, 0x80000001, EXTENDED_V2);
    return &none;
}
