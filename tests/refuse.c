/* Loaded in front of a program (LD_PRELOAD), refuses one of its allocations, or all from one on.
 *
 * REFUSED is the allocation's number, counted from 1; a '+' behind it says all from that one on, and a 't' that the first
 * thread's aren't counted. Each refusal is told by a byte on the descriptor whose number is TOLD. It is compiled with no
 * header, so what it calls is declared here. */
typedef unsigned long size;

extern void *__libc_malloc(size);
extern void *__libc_calloc(size, size);
extern void *__libc_realloc(void *, size);
extern char *getenv(const char *);
extern int atoi(const char *);
extern long write(int, const void *, size);
extern int *__errno_location(void);
extern int getpid(void);
extern int gettid(void);

static const int no_memory = 12; /* ENOMEM */

static int refused;
static int and_later;
static int but_first;
static int told;
static int count;

__attribute__((constructor)) static void begin(void) {
    const char *word = getenv("REFUSED");
    const char *descriptor = getenv("TOLD");
    if (!word || !descriptor)
        return;
    told = atoi(descriptor);
    while (*word >= '0' && *word <= '9')
        refused = refused * 10 + (*word++ - '0');
    and_later = *word == '+';
    but_first = *word == 't';
}

static int is_refused(void) {
    if (!refused || (but_first && gettid() == getpid()))
        return 0;
    count++;
    if (count != refused && !(and_later && count > refused))
        return 0;
    write(told, "r", 1);
    *__errno_location() = no_memory;
    return 1;
}

void *malloc(size bytes) {
    return is_refused() ? 0 : __libc_malloc(bytes);
}

void *calloc(size number, size bytes) {
    return is_refused() ? 0 : __libc_calloc(number, bytes);
}

void *realloc(void *old, size bytes) {
    return is_refused() ? 0 : __libc_realloc(old, bytes);
}
