/* Holds each thread of a program that this library is loaded into at its start, until as many are there as the
   environment's HOLD says. Where they don't come within ten seconds, it ends the program with status 99. */
extern void *dlsym(void *library, const char *name);
extern char *getenv(const char *name);
extern int atoi(const char *text);
extern int usleep(unsigned microseconds);
extern void _exit(int status);

struct task {
    void *(*start)(void *);
    void *argument;
};

static struct task tasks[64];
static int created, held;

static void *hold(void *argument) {
    struct task *task = argument;
    int wanted = atoi(getenv("HOLD"));
    int turns = 0;
    __atomic_add_fetch(&held, 1, __ATOMIC_SEQ_CST);
    while (__atomic_load_n(&held, __ATOMIC_SEQ_CST) < wanted) {
        if (turns++ == 10000)
            _exit(99);
        usleep(1000);
    }
    return task->start(task->argument);
}

int pthread_create(void *thread, const void *attributes, void *(*start)(void *), void *argument) {
    int (*next)(void *, const void *, void *(*)(void *), void *) = dlsym((void *) -1L, "pthread_create");
    struct task *task = &tasks[__atomic_fetch_add(&created, 1, __ATOMIC_SEQ_CST)];
    task->start = start;
    task->argument = argument;
    return next(thread, attributes, hold, task);
}
