/* Runs batches of cases under qemu-mipsel. A case is loaded by returning from
   a signal handler with its registers in the saved context, and ends in a
   signal (BREAK, overflow, unaligned access) whose context holds the result.
   So every register, HI, LO and PC can take part. */

#define BATCH 4096
#define BLOCK_WORDS 8
#define CODE_WORDS 16
#define STATES_AT 0x20400000u
#define CODE_AT 0x20500000u

typedef unsigned int word;
typedef unsigned long long wide;

struct state {
    word registers[32];
    word hi, lo, pc, signal;
    word block[BLOCK_WORDS];
};

/* The saved context as the kernel lays it out for o32. */
struct context {
    word flags, link, stack[3], pad;
    word regmask, status;
    wide pc, registers[32], float_registers[32];
    word owned, control, implementation, used, dsp, pad2;
    wide hi, lo;
};

struct action {
    word flags;
    void (*handler)(int, void *, struct context *);
    word mask[4];
};

struct alternate_stack {
    void *start;
    word size, flags;
};

long system_call(long number, ...);

enum { READ = 4003, WRITE = 4004, MMAP = 4090, ACTION = 4194, STACK = 4206, EXIT = 4246 };
enum { SIGILL = 4, SIGTRAP = 5, SIGFPE = 8, SIGBUS = 10, SIGSEGV = 11 };

static struct state *const states = (struct state *)STATES_AT;
static char alternate[65536] __attribute__((aligned(16)));
static int current = -1;

static void leave(int code) { system_call(EXIT, code, 0, 0, 0, 0, 0); }

static void read_all(word to, word bytes) {
    word done = 0;
    while (done < bytes) {
        long got = system_call(READ, 0, to + done, bytes - done, 0, 0, 0);
        if (got == 0 && done == 0) leave(0);
        if (got <= 0) leave(3);
        done += got;
    }
}

static void write_all(word from, word bytes) {
    word done = 0;
    while (done < bytes) {
        long put = system_call(WRITE, 1, from + done, bytes - done, 0, 0, 0);
        if (put <= 0) leave(4);
        done += put;
    }
}

static void next_batch(void) {
    read_all(STATES_AT, BATCH * sizeof(struct state));
    read_all(CODE_AT, BATCH * CODE_WORDS * sizeof(word));
    current = 0;
}

static void save(struct state *state, const struct context *context, int signal) {
    for (int i = 0; i < 32; i++) state->registers[i] = context->registers[i];
    state->hi = context->hi;
    state->lo = context->lo;
    state->pc = context->pc;
    state->signal = signal;
}

static void load(const struct state *state, struct context *context) {
    for (int i = 1; i < 32; i++) context->registers[i] = (int)state->registers[i];
    context->hi = (int)state->hi;
    context->lo = (int)state->lo;
    context->pc = state->pc;
}

static void ended(int signal, void *information, struct context *context) {
    (void)information;
    if (current < 0) {
        next_batch();
    } else {
        save(&states[current], context, signal);
        if (++current == BATCH) {
            write_all(STATES_AT, BATCH * sizeof(struct state));
            next_batch();
        }
    }
    load(&states[current], context);
}

static void map(word at, word bytes, word protection) {
    const word private_fixed_anonymous = 0x812;
    if ((word)system_call(MMAP, at, bytes, protection, private_fixed_anonymous, -1, 0) != at) leave(5);
}

void judge(void) {
    static const int signals[] = {SIGILL, SIGTRAP, SIGFPE, SIGBUS, SIGSEGV};
    struct alternate_stack stack = {alternate, sizeof alternate, 0};
    struct action action = {0x08000008, ended, {0, 0, 0, 0}}; /* SA_ONSTACK, SA_SIGINFO */
    map(STATES_AT, 0x100000, 3);
    map(CODE_AT, 0x40000, 7);
    system_call(STACK, &stack, 0, 0, 0, 0, 0);
    for (unsigned i = 0; i < sizeof signals / sizeof *signals; i++)
        system_call(ACTION, signals[i], &action, 0, 16, 0, 0);
    __asm__ volatile("break");
    leave(6);
}
