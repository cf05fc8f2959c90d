/* Loaded in front of a program (LD_PRELOAD): the system gives it no random bytes. It is compiled with no header. */
extern int *__errno_location(void);

static const int no_such_call = 38; /* ENOSYS */

int getentropy(void *bytes, unsigned long length)
{
    (void)bytes;
    (void)length;
    *__errno_location() = no_such_call;
    return -1;
}
