/* Loaded in front of a program (LD_PRELOAD), refuses one of its threads.
 *
 * REFUSED_THREAD is the thread's number, counted from 1. It is compiled with no header, so what it calls is declared
 * here. */
extern char *getenv(const char *);
extern int atoi(const char *);
extern void *dlsym(void *, const char *);

typedef int create(void *, const void *, void *(*)(void *), void *);

static const int again = 11; /* EAGAIN: there are too many threads */
static int count;

int pthread_create(void *thread, const void *attributes, void *(*start)(void *), void *argument) {
    const char *word = getenv("REFUSED_THREAD");
    create *next = (create *)dlsym((void *)-1L, "pthread_create");
    count++;
    if (!next || (word && count == atoi(word)))
        return again;
    return next(thread, attributes, start, argument);
}
