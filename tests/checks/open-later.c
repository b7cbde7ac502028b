/* Opens another file in a program that this library is loaded into: whenever a file whose name ends with .jsonl is opened
   for the second time or a later one, the file with .later after that name. */
extern void *dlsym(void *library, const char *name);
extern char *strcpy(char *to, const char *from);
extern unsigned long strlen(const char *text);
extern int strcmp(const char *one, const char *other);

static const char ENDING[] = ".jsonl";
static int count;

static int open_by(const char *symbol, const char *path, int flags, unsigned mode) {
    static char later[4096];
    int (*next)(const char *, int, unsigned) = dlsym((void *) -1L, symbol);
    unsigned long length = strlen(path);
    if (length < sizeof ENDING || length + 8 > sizeof later || strcmp(path + length - (sizeof ENDING - 1), ENDING) != 0)
        return next(path, flags, mode);
    count += 1;
    if (count == 1)
        return next(path, flags, mode);
    strcpy(later, path);
    strcpy(later + length, ".later");
    return next(later, flags, mode);
}

int open(const char *path, int flags, unsigned mode) {
    return open_by("open", path, flags, mode);
}

int open64(const char *path, int flags, unsigned mode) {
    return open_by("open64", path, flags, mode);
}
