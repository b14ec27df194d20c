/* What the proved program asks of the system, where it is a module: the calls of C that it makes. Files, folders, streams and
 * words are those of whoever runs the module: the functions of MACHINE, which web/src/package/machine.ts writes for Node. A
 * call that fails is answered there by Linux's number for the error, negated. Nothing else is asked, and no file is written.
 */
typedef unsigned long size;
typedef unsigned int address; /* in the module's memory, which has less than 2^32 bytes */

#define MACHINE(name) __attribute__((import_module("machine"), import_name(#name))) int machine_##name
/* Puts a word, the first of which is the program's name: its length, or -1 without it, or -2 where it doesn't fit. */
MACHINE(word)(address number, address to, address room);
/* Opens a file to read it, and a folder. */
MACHINE(open)(address path, address length);
MACHINE(list)(address path, address length);
/* Puts the next name of a folder: its length, or 0 at the end. */
MACHINE(name)(int folder, address to, address room);
/* The kind of file that is at a path, by Linux's numbers: of a link itself, unless it follows links. */
MACHINE(mode)(address path, address length, int follows);
MACHINE(read)(int file, address to, address room);
MACHINE(write)(int file, address from, address length);
MACHINE(close)(int file);
MACHINE(terminal)(int file);
/* Puts what Linux says of an error: its length. */
MACHINE(error)(int error, address to, address room);

enum { EINVAL = 22, EROFS = 30, O_ACCMODE = 3, AT_FDCWD = -100, AT_SYMLINK_NOFOLLOW = 0x100, FURTHEST = 1 << 30 };

static int last_error;
int rattle_errno(void) { return last_error; }
void rattle_set_errno(int error) { last_error = error; }

static int failed(int error) {
    last_error = error;
    return -1;
}

static int told(int answer) { return answer < 0 ? failed(-answer) : answer; }

static address at(const void *place) { return (address)(size)place; }

static address length_of(const char *text) {
    address length = 0;
    while (text[length])
        length++;
    return length;
}

/* As much as one call moves. */
static address part(size length) { return length < FURTHEST ? length : FURTHEST; }

long rattle_arg(size number, char *to, size room) { return machine_word(number, at(to), part(room)); }

int open(const char *path, int flags, ...) {
    return flags & O_ACCMODE ? failed(EROFS) : told(machine_open(at(path), length_of(path)));
}

int rattle_open_dir_at(int folder, const char *path) {
    return folder != AT_FDCWD ? failed(EINVAL) : told(machine_list(at(path), length_of(path)));
}

long read(int file, char *to, size room) { return told(machine_read(file, at(to), part(room))); }
long write(int file, const char *from, size length) { return told(machine_write(file, at(from), part(length))); }
int close(int file) { return told(machine_close(file)); }
int isatty(int file) { return machine_terminal(file); }

/* Of what Linux tells of a file, the kind. */
typedef struct { char before[28]; unsigned short mode; } about;

int statx(int folder, const char *path, int flags, unsigned mask, about *found) {
    if (folder != AT_FDCWD || flags & ~AT_SYMLINK_NOFOLLOW)
        return failed(EINVAL);
    int mode = told(machine_mode(at(path), length_of(path), !(flags & AT_SYMLINK_NOFOLLOW)));
    if (mode < 0)
        return -1;
    found->mode = mode;
    return 0;
}

/* An entry of a folder: its length, and its name, which ends with 0. */
enum { ENTRY_LENGTH = 16, ENTRY_NAME = 19 };

long getdents64(int folder, char *entries, size room) {
    size used = 0;
    for (;;) {
        char *entry = entries + used, *name = entry + ENTRY_NAME;
        size rest = room - used;
        int length = rest > ENTRY_NAME + 1 ? machine_name(folder, at(name), part(rest - ENTRY_NAME - 1)) : -EINVAL;
        if (length <= 0)
            return used ? (long)used : told(length);
        size whole = ENTRY_NAME + length + 1;
        name[length] = 0;
        entry[ENTRY_LENGTH] = whole;
        entry[ENTRY_LENGTH + 1] = whole >> 8;
        used += whole;
    }
}

int __xpg_strerror_r(int error, char *to, size room) {
    if (room)
        to[machine_error(error, at(to), part(room - 1))] = 0;
    return 0;
}

/* The program first asks whether the processor has what it was lowered for. What needs that is WebAssembly by now. */
static const unsigned all_of_it[8] = {~0u, ~0u, ~0u, ~0u, ~0u, ~0u, ~0u, ~0u};
const unsigned *__x86_get_cpuid_feature_leaf(unsigned number) { return all_of_it; }
long __write(int file, const char *from, size length) { return write(file, from, length); }

/* A write to a pipe that nobody reads fails, and ends nobody: so it is in Node. */
long __sysv_signal(int signal, long handler) { return 0; }

int main(int count, char **words);
int run(void) { return main(0, 0); }
