/* Loaded before a program's own libraries: counts the requests for memory, and of each one whose
   number is from REFUSED_FROM to REFUSED_TO tries the refusal. For that the program forks: the
   child's request is refused, and it runs on to its end, while the parent waits; then the parent
   writes down how the child ended, takes back what the child read and printed, and goes on as if
   nothing had been. Behind the last number it ends. So the program starts once for many refusals.
   Input, output and error output have to be files.

   The clock goes on by a second at each look, so that a benchmark makes the same requests each
   time, and a run that hangs is ended after a minute. */

typedef unsigned long size;

extern void *dlsym(void *after, const char *name);
extern char *getenv(const char *name);
extern int fork(void);
extern int waitpid(int child, int *status, int options);
extern void _exit(int status);
extern long write(int to, const void *from, size length);
extern long pread(int from, void *to, size length, long at);
extern long pwrite(int to, const void *from, size length, long at);
extern long lseek(int file, long offset, int whence);
extern int ftruncate(int file, long length);
extern long sendfile(int to, int from, long *at, size length);
extern unsigned alarm(unsigned seconds);

#define OF_THE_C_LIBRARY(name) dlsym((void *)-1L, name)

enum { FROM_START, FROM_HERE };

enum { A_MINUTE = 60 };

/* The standard files, the one for the number of requests of a run that came to its end, and the one
   for what is written down of each child. */
enum { INPUT, OUTPUT, ERROR, REQUESTS, RUNS };

/* What is written down of a child, followed by its output and its error output. */
struct run {
    size status, requests, output, error;
};

static size requests, from, to;
static long seconds;

static size number_in(const char *name)
{
    const char *text = getenv(name);
    size number = 0;
    while (text && *text)
        number = number * 10 + (size)(*text++ - '0');
    return number;
}

static void note_requests(size number)
{
    if (pwrite(REQUESTS, &number, sizeof number, 0) != sizeof number)
        _exit(2);
}

__attribute__((constructor)) static void begin(void)
{
    from = number_in("REFUSED_FROM");
    to = number_in("REFUSED_TO");
    requests = 0;
    alarm(A_MINUTE);
}

__attribute__((destructor)) static void end(void)
{
    note_requests(requests);
}

static long place_in(int file)
{
    return lseek(file, 0, FROM_HERE);
}

static void copy(int file, size length)
{
    long at = 0;
    while ((size)at < length)
        if (sendfile(RUNS, file, &at, length - (size)at) <= 0)
            _exit(2);
}

/* Waits for a child, and writes down how it ended, and what it and its parent printed. */
static void write_down(int child)
{
    struct run run = {0, 0, 0, 0};
    int status = 0;

    if (child < 0 || waitpid(child, &status, 0) != child)
        _exit(2);
    run.status = (size)status;
    run.output = (size)place_in(OUTPUT);
    run.error = (size)place_in(ERROR);
    if (pread(REQUESTS, &run.requests, sizeof run.requests, 0) != sizeof run.requests)
        _exit(2);
    if (write(RUNS, &run, sizeof run) != sizeof run)
        _exit(2);
    copy(OUTPUT, run.output);
    copy(ERROR, run.error);
}

static void take_back(int file, long place)
{
    if (ftruncate(file, place) || lseek(file, place, FROM_START) != place)
        _exit(2);
}

/* Counts a request; whether it is refused, as it is in a child that this makes. */
static int is_refused(void)
{
    long input, output, error;
    int child;

    ++requests;
    if (requests < from || requests > to)
        return 0;
    input = place_in(INPUT);
    output = place_in(OUTPUT);
    error = place_in(ERROR);
    note_requests(0);
    alarm(0);
    child = fork();
    if (child == 0) {
        alarm(A_MINUTE);
        to = 0;
        return 1;
    }
    write_down(child);
    alarm(A_MINUTE);
    if (requests == to)
        _exit(0);
    take_back(OUTPUT, output);
    take_back(ERROR, error);
    lseek(INPUT, input, FROM_START);
    return 0;
}

void *malloc(size length)
{
    static void *(*allocate)(size);
    if (!allocate)
        allocate = (void *(*)(size))OF_THE_C_LIBRARY("malloc");
    return is_refused() ? 0 : allocate(length);
}

void *realloc(void *block, size length)
{
    static void *(*reallocate)(void *, size);
    if (!reallocate)
        reallocate = (void *(*)(void *, size))OF_THE_C_LIBRARY("realloc");
    return is_refused() ? 0 : reallocate(block, length);
}

int clock_gettime(int clock, long *time)
{
    (void)clock;
    time[0] = ++seconds;
    time[1] = 0;
    return 0;
}
