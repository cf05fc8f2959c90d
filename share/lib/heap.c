/* The heap of libmaglev: its proved code takes memory by these three, which call the program's malloc, realloc and free. No
 * proof covers this file. It is compiled with no header, so that any compiler of C makes it for any machine. */
typedef __SIZE_TYPE__ size;

extern void *malloc(size);
extern void *realloc(void *, size);
extern void free(void *);

#define INSIDE __attribute__((visibility("hidden")))

/* Whether there is memory, and where. It is passed back in two registers. */
struct tried {
    _Bool ok;
    void *at;
};

static unsigned char nothing;

static struct tried tried(void *at) { return (struct tried){at != 0, at ? at : &nothing}; }

INSIDE struct tried rattle_alloc(size bytes, size aligned) { return tried(malloc(bytes ? bytes : aligned)); }

INSIDE struct tried rattle_realloc(void *at, size kept, size bytes, size aligned) {
    (void)kept;
    return tried(realloc(at, bytes ? bytes : aligned));
}

INSIDE void rattle_dealloc(void *at) { free(at); }
