/* Refuses requests for memory of a program that this library is loaded into: from the one on whose number, counted from
   1, the environment's REFUSE names, to the one that UNTIL names, or to the last, where there is no UNTIL. The file that
   REFUSED names is made then. When the program ends, the file that COUNTED names has the number of all requests, and the
   file that KEPT names the number of blocks that were not given back. The file that LOG names gets a line `request` for
   each request, between what the program prints. What the C library asks for by itself counts too, as for a thread. */
typedef __SIZE_TYPE__ size_t;
typedef long ssize_t;
extern void *dlsym(void *library, const char *name);
extern char *getenv(const char *name);
extern int atoi(const char *text);
extern int creat(const char *file, unsigned mode);
extern int dprintf(int file, const char *format, ...);
extern int *__errno_location(void);

/* That there is no memory. */
static const int ENOMEM = 12;

static int count;
static int kept;

/* The C library's own function of that name. */
static void *next(const char *name) {
    return dlsym((void *) -1L, name);
}

/* Adds a text to the log, if there is one. */
static void add_to_log(const void *text, size_t size) {
    static int log;
    const char *file = getenv("LOG");
    if (file && !log)
        log = creat(file, 0600);
    if (log > 0)
        ((ssize_t (*)(int, const void *, size_t)) next("write"))(log, text, size);
}

ssize_t write(int file, const void *bytes, size_t size) {
    if (file == 1)
        add_to_log(bytes, size);
    return ((ssize_t (*)(int, const void *, size_t)) next("write"))(file, bytes, size);
}

static int is_refused(void) {
    int this = __atomic_add_fetch(&count, 1, __ATOMIC_SEQ_CST);
    add_to_log("request\n", 8);
    const char *number = getenv("REFUSE");
    const char *last = getenv("UNTIL");
    if (!number || this < atoi(number) || (last && this > atoi(last)))
        return 0;
    const char *file = getenv("REFUSED");
    if (file)
        creat(file, 0600);
    *__errno_location() = ENOMEM;
    return 1;
}

/* One block more is out, if there is one. */
static void *out(void *block) {
    if (block)
        __atomic_add_fetch(&kept, 1, __ATOMIC_SEQ_CST);
    return block;
}

void *malloc(size_t size) {
    return is_refused() ? 0 : out(((void *(*)(size_t)) next("malloc"))(size));
}

/* The C library alone asks so, for a block that it keeps with a thread's stack once the thread has ended: it isn't
   counted among those that are out. */
void *calloc(size_t number, size_t size) {
    return is_refused() ? 0 : ((void *(*)(size_t, size_t)) next("calloc"))(number, size);
}

/* A block that grows is the same one. */
void *realloc(void *block, size_t size) {
    if (is_refused())
        return 0;
    void *moved = ((void *(*)(void *, size_t)) next("realloc"))(block, size);
    return block ? moved : out(moved);
}

void free(void *block) {
    if (block)
        __atomic_sub_fetch(&kept, 1, __ATOMIC_SEQ_CST);
    ((void (*)(void *)) next("free"))(block);
}

/* Writes a number to the file that this variable of the environment names, if it names one. */
static void tell_of(const char *name, int number) {
    const char *file = getenv(name);
    if (file)
        dprintf(creat(file, 0600), "%d\n", number);
}

__attribute__((destructor)) static void tell(void) {
    int blocks = kept;
    tell_of("COUNTED", count);
    tell_of("KEPT", blocks);
}

/* A program with threads ends so, and calls no destructor. */
void _exit(int status) {
    tell();
    ((void (*)(int)) next("_exit"))(status);
    __builtin_unreachable();
}
