/* Refuses requests for a thread of a program that this library is loaded into: from the one on whose number, counted
   from 1, the environment's REFUSE names, to the one that UNTIL names, or to the last, where there is no UNTIL. The file
   that REFUSED names is made then. */
extern void *dlsym(void *library, const char *name);
extern char *getenv(const char *name);
extern int atoi(const char *text);
extern int creat(const char *file, unsigned mode);

/* That there are no means for a thread now. */
static const int EAGAIN = 11;

static int count;

int pthread_create(void *thread, const void *attributes, void *(*start)(void *), void *argument) {
    const char *number = getenv("REFUSE");
    const char *last = getenv("UNTIL");
    count += 1;
    if (number && count >= atoi(number) && (!last || count <= atoi(last))) {
        const char *file = getenv("REFUSED");
        if (file)
            creat(file, 0600);
        return EAGAIN;
    }
    int (*next)(void *, const void *, void *(*)(void *), void *) = dlsym((void *) -1L, "pthread_create");
    return next(thread, attributes, start, argument);
}
