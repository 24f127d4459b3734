/* How a program of a release starts, under any C library from 2.17 on.
 *
 * Of what the object code and the toolchain's start files call, two functions came later: `__libc_start_main` as it is since
 * 2.34, and `__x86_get_cpuid_feature_leaf`, which is there since 2.33. Both are defined here, so that the linker takes these. */

typedef int Main(int count, char **words, char **environment);
typedef void Constructor(int count, char **words, char **environment);
typedef void End(void);

/* Since 2.34 the C library calls the constructors of a program. Before it had a function of the program do that, which the
 * start files no longer have; it calls this function still if it is given one. */
__asm__(".symver start_main_before_2_34, __libc_start_main@GLIBC_2.2.5");
extern int start_main_before_2_34(Main *main, int count, char **words, Constructor *init, End *fini, End *loader_fini, void *stack_end);

/* The linker sets where the constructors of the program begin and end. */
extern __attribute__((visibility("hidden"))) Constructor *__init_array_start[], *__init_array_end[];

static void call_constructors(int count, char **words, char **environment) {
    for (Constructor **constructor = __init_array_start; constructor < __init_array_end; constructor++) {
        (*constructor)(count, words, environment);
    }
}

__attribute__((visibility("hidden"))) int __libc_start_main(Main *main, int count, char **words, Constructor *init, End *fini,
                                                            End *loader_fini, void *stack_end) {
    (void)init;
    return start_main_before_2_34(main, count, words, call_constructors, fini, loader_fini, stack_end);
}

/* What a processor can do, by the registers eax, ebx, ecx and edx: what it says, and what of it may be used. */
struct features {
    unsigned said[4], usable[4];
};

static unsigned ecx_of_leaf(unsigned leaf) {
    unsigned eax = leaf, ebx, ecx = 0, edx;
    __asm__("cpuid" : "+a"(eax), "=b"(ebx), "+c"(ecx), "=d"(edx));
    return ecx;
}

/* Where the object code is for x86-64-v2, the program asks as it starts whether the processor has its features, and ends with
 * status 127 where it hasn't. Those of the leaves 1 and 80000001 may be used where the processor has them, and no other
 * feature is said to be usable. */
__attribute__((visibility("hidden"))) const struct features *__x86_get_cpuid_feature_leaf(unsigned index) {
    enum { LEAF_1, NONE, LEAF_80000001 };
    enum { ECX = 2, SSE3 = 1 << 0, SSSE3 = 1 << 9, CMPXCHG16B = 1 << 13, SSE4_1 = 1 << 19, SSE4_2 = 1 << 20, POPCNT = 1 << 23, LAHF = 1 << 0 };
    static struct features found[3];
    if (index != LEAF_1 && index != LEAF_80000001) {
        return &found[NONE];
    }
    unsigned said = ecx_of_leaf(index == LEAF_1 ? 1 : 0x80000001);
    unsigned asked = index == LEAF_1 ? SSE3 | SSSE3 | CMPXCHG16B | SSE4_1 | SSE4_2 | POPCNT : LAHF;
    found[index].said[ECX] = said;
    found[index].usable[ECX] = said & asked;
    return &found[index];
}
