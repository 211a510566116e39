/* Loaded before a program: refuses one of its requests for memory, that of the number in REFUSED,
   and lets one of its reads fail, that of the number in FAILED. Where COUNTED names a file, it
   writes there how many of both it made. It stands on nothing but the C library of the machine. */
typedef unsigned long size;
extern void *__libc_malloc(size bytes);
extern void *__libc_realloc(void *old, size bytes);
extern char *getenv(const char *name);
extern long strtol(const char *text, char **end, int base);
extern int open(const char *path, int flags, ...);
extern long write(int file, const void *bytes, size count);
extern long __read(int file, void *bytes, size count);
extern int *__errno_location(void);

static long asked, refused, reads, failed;

static long number_in(const char *name) {
    const char *number = getenv(name);
    return number ? strtol(number, 0, 10) : 0;
}

__attribute__((constructor)) static void begin(void) {
    asked = reads = 0;
    refused = number_in("REFUSED");
    failed = number_in("FAILED");
}

static int is_refused(void) { return ++asked == refused; }

void *malloc(size bytes) { return is_refused() ? 0 : __libc_malloc(bytes); }

void *realloc(void *old, size bytes) { return is_refused() ? 0 : __libc_realloc(old, bytes); }

/* EIO, as a broken device has it. */
long read(int file, void *bytes, size count) {
    if (++reads != failed) return __read(file, bytes, count);
    *__errno_location() = 5;
    return -1;
}

static int put_digits(char *end, long number) {
    int count = 0;
    do end[-++count] = '0' + number % 10; while ((number /= 10) > 0);
    return count;
}

__attribute__((destructor)) static void end(void) {
    const char *path = getenv("COUNTED");
    char text[48], *at = text + sizeof text;
    if (!path) return;
    at -= put_digits(at, reads);
    *--at = ' ';
    at -= put_digits(at, asked);
    int file = open(path, 01 | 0100 | 01000, 0600);
    if (file < 0 || write(file, at, text + sizeof text - at) < 0) return;
}
