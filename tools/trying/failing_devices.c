/* Devices that fail at a call, and a list of what is opened and made: a library in front of the C library's calls.
 *
 * DEVICES has a line NAME CALL for each device that fails at the call of that number, from 0: `input`, `output` and `errors`, the file that
 * is made (`made`), and files that are read, by their names after a slash. Such a device moves a byte a call; the call that fails answers
 * EPIPE, and EIO where it is a write; of a file that is made it takes no byte, and the next one works again. `closed` is an output which is
 * a pipe that nobody reads from that call on: each answers EPIPE. One file can be made, and none where a line is `full`.
 * The list, ` open NAME` and ` make NAME`, goes to the descriptor in OPENED. It needs no header, as a compiler alone may have none. */
extern void *dlsym(void *, const char *);
extern int *__errno_location(void);
extern char *getenv(const char *);
extern unsigned long strlen(const char *);
extern int strncmp(const char *, const char *, unsigned long), strcmp(const char *, const char *);
extern long strtol(const char *, char **, int);

enum { MOST = 16, NONE = -1, EPIPE = 32, EIO = 5, ENOENT = 2, EISDIR = 21, O_CREAT = 0100 };
#define NEXT ((void *)-1l)

static const char *devices = "";
static int opened = NONE, has_made, is_full, is_closed, is_read;
/* Of each descriptor the calls until it fails: NONE where it is no device of the list. */
static long left[MOST];
static int takes_none[MOST];

/* The call at which a device of the list fails. */
static long call_of(const char *slash, const char *name) {
    unsigned long front = strlen(slash), length = strlen(name);
    for (const char *at = devices; *at; at++) {
        if ((at == devices || at[-1] == '\n') && strncmp(at, slash, front) == 0 && strncmp(at + front, name, length) == 0
            && at[front + length] == ' ') {
            return strtol(at + front + length, 0, 10);
        }
    }
    return NONE;
}

static void begin(int file, long call, int none) {
    if (0 <= file && file < MOST) {
        left[file] = call;
        takes_none[file] = none;
    }
}

static void read_list(void) {
    if (!is_read) {
        is_read = 1;
        for (int file = 0; file < MOST; file++) left[file] = NONE;
        if (getenv("DEVICES")) devices = getenv("DEVICES");
        if (getenv("OPENED")) opened = (int)strtol(getenv("OPENED"), 0, 10);
        is_full = call_of("", "full") != NONE;
        begin(0, call_of("", "input"), 0);
        is_closed = call_of("", "closed") != NONE;
        begin(1, call_of("", is_closed ? "closed" : "output"), 0);
        begin(2, call_of("", "errors"), 0);
    }
}

static long moved(const char *call, int file, void *bytes, unsigned long count, int fault) {
    long (*plain)(int, void *, unsigned long) = (long (*)(int, void *, unsigned long))dlsym(NEXT, call);
    read_list();
    if (file < 0 || MOST <= file || left[file] == NONE || count == 0) {
        return plain(file, bytes, count);
    }
    if (left[file] == 0 && file == 1 && is_closed) {
        *__errno_location() = EPIPE;
        return -1;
    }
    if (left[file]-- == 0) {
        left[file] = 1l << 62;
        *__errno_location() = fault;
        return takes_none[file] ? 0 : -1;
    }
    return plain(file, bytes, 1);
}

long read(int file, void *bytes, unsigned long count) { return moved("read", file, bytes, count, EPIPE); }
long write(int file, const void *bytes, unsigned long count) { return moved("write", file, (void *)bytes, count, EIO); }
long __write(int file, const void *bytes, unsigned long count) { return moved("write", file, (void *)bytes, count, EIO); }

static void note(const char *deed, const char *name) {
    read_list();
    if (opened != NONE) {
        long (*plain)(int, const void *, unsigned long) = (long (*)(int, const void *, unsigned long))dlsym(NEXT, "write");
        plain(opened, deed, strlen(deed));
        plain(opened, name, strlen(name));
    }
}

int open(const char *name, int flags, int mode) {
    int makes = (flags & O_CREAT) != 0, (*plain)(const char *, int, int) = (int (*)(const char *, int, int))dlsym(NEXT, "open");
    note(makes ? " make " : " open ", name);
    /* where none can be made, a directory is still one */
    if (makes && (is_full || has_made)) {
        int file = plain(name, 1, 0);
        if (file < 0 && *__errno_location() == EISDIR) {
            return file;
        }
        *__errno_location() = ENOENT;
        return NONE;
    }
    int file = plain(name, flags, mode);
    has_made |= makes && file >= 0;
    begin(file, makes ? call_of("", "made") : call_of("/", name), makes);
    return file;
}
