/* Fails a read in a program that this library is loaded into: of a file whose name ends with .script as many bytes can be
   read as the environment's AFTER says, and each read after them fails. */
typedef __SIZE_TYPE__ size_t;
typedef long ssize_t;
extern void *dlsym(void *library, const char *name);
extern char *getenv(const char *name);
extern int atoi(const char *text);
extern size_t strlen(const char *text);
extern int strcmp(const char *one, const char *other);
extern int *__errno_location(void);

/* That the device failed. */
static const int EIO = 5;

static const char ENDING[] = ".script";
static int script = -1;
static size_t left;

static int open_by(const char *symbol, const char *path, int flags, unsigned mode) {
    int (*next)(const char *, int, unsigned) = dlsym((void *) -1L, symbol);
    int file = next(path, flags, mode);
    size_t length = strlen(path);
    if (file >= 0 && length >= sizeof ENDING && strcmp(path + length - (sizeof ENDING - 1), ENDING) == 0) {
        script = file;
        left = (size_t) atoi(getenv("AFTER"));
    }
    return file;
}

int open(const char *path, int flags, unsigned mode) {
    return open_by("open", path, flags, mode);
}

int open64(const char *path, int flags, unsigned mode) {
    return open_by("open64", path, flags, mode);
}

ssize_t read(int file, void *bytes, size_t size) {
    ssize_t (*next)(int, void *, size_t) = dlsym((void *) -1L, "read");
    if (file != script)
        return next(file, bytes, size);
    if (left == 0) {
        *__errno_location() = EIO;
        return -1;
    }
    ssize_t taken = next(file, bytes, size < left ? size : left);
    left -= taken > 0 ? (size_t) taken : 0;
    return taken;
}
