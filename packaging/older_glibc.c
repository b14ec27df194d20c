/* What the released program asks of glibc that it has since 2.30, 2.33 and 2.34, made of what it has had for longer, so that
   an older one runs it. All else that the program asks is there since 2.28. It is for x86-64 alone. */

/* How a program begins. Since 2.34 glibc runs the program's constructors; one that is given a function for that, as
   before, calls it. The start file of the kit calls `begin_program` in the place of `__libc_start_main`. */

typedef int Main(int, char **, char **);
typedef void Constructor(int, char **, char **);

int begin_in_glibc(Main *, int, char **, Constructor *, void (*)(void), void (*)(void), void *);
__asm__(".symver begin_in_glibc, __libc_start_main@GLIBC_2.2.5");

extern Constructor *__init_array_start[], *__init_array_end[];
void _init(void);

static void construct(int count, char **words, char **environment)
{
    _init();
    for (Constructor **each = __init_array_start; each != __init_array_end; each++)
        (*each)(count, words, environment);
}

int begin_program(Main *program, int count, char **words, Constructor *none, void (*at_exit)(void),
                  void (*at_exit_of_loader)(void), void *stack)
{
    (void)none;
    return begin_in_glibc(program, count, words, construct, at_exit, at_exit_of_loader, stack);
}

/* What the processor has, which the program asks as it begins: instructions that x86-64 processors have since about 2011.
   They need nothing of the system, so what the processor has is active. The layout is that of <sys/platform/x86.h>; both
   leaves are there on every x86-64 processor, and of others nothing is said to be there. */

struct cpuid_feature {
    unsigned int present[4];
    unsigned int active[4];
};

const struct cpuid_feature *__x86_get_cpuid_feature_leaf(unsigned int number)
{
    static struct cpuid_feature basic, extended, none;
    struct cpuid_feature *found = number == 0 ? &basic : number == 2 ? &extended : &none;
    unsigned int a = number == 0 ? 1 : 0x80000001u, b, c = 0, d;

    if (found == &none)
        return found;
    __asm__("cpuid" : "+a"(a), "=b"(b), "+c"(c), "=d"(d));
    found->present[0] = found->active[0] = a;
    found->present[1] = found->active[1] = b;
    found->present[2] = found->active[2] = c;
    found->present[3] = found->active[3] = d;
    return found;
}

/* The entries of a folder: a call of the system, of this number. */

long syscall(long, ...);

long getdents64(int file, void *entries, unsigned long room)
{
    return syscall(217, file, entries, room);
}
