/* Loaded before a program starts, it stands for the machine below the program, as the environment says:

   MPS_REFUSE=FIRST-LAST   requests for memory with these numbers, from 1, are refused; when the program ends, how many
                           there were is written to the standard error
   MPS_CUT=BYTES           the first read of a script gives so many bytes, where it would give more
   MPS_FAIL_READ=NUMBER    the read of a script with this number, from 1, fails
   MPS_TAKE=BYTES          the standard output takes so many bytes; then each write to it fails

   A read of a script is told by its size, which no other read has. */
enum { SYS_READ = 0, SYS_WRITE = 1, SCRIPT_READ = 65536, EIO = 5 };

void *__libc_malloc(unsigned long);
void *__libc_realloc(void *, unsigned long);
char *getenv(const char *);
long strtol(const char *, char **, int);
int *__errno_location(void);

static long requests, first, last = -1, reads, cut = -1, failing, space = -1;
static int tells;

static long number_in(const char *name, long missing) {
    char *words = getenv(name);
    return words ? strtol(words, 0, 10) : missing;
}

__attribute__((constructor)) static void begin(void) {
    char *words = getenv("MPS_REFUSE");
    tells = words != 0;
    if (words) {
        first = strtol(words, &words, 10);
        last = strtol(words + 1, 0, 10);
    }
    cut = number_in("MPS_CUT", -1);
    failing = number_in("MPS_FAIL_READ", 0);
    space = number_in("MPS_TAKE", -1);
    requests = 0;
}

static int is_refused(void) {
    long number = __atomic_add_fetch(&requests, 1, __ATOMIC_SEQ_CST);
    return first <= number && number <= last;
}

void *malloc(unsigned long size) { return is_refused() ? 0 : __libc_malloc(size); }

void *realloc(void *old, unsigned long size) { return is_refused() ? 0 : __libc_realloc(old, size); }

static long call(long number, long a, long b, long c) {
    long result;
    __asm__ volatile("syscall" : "=a"(result) : "a"(number), "D"(a), "S"(b), "d"(c) : "rcx", "r11", "memory");
    return result;
}

static long told(long result) {
    if (-4096 < result && result < 0) {
        *__errno_location() = (int)-result;
        return -1;
    }
    return result;
}

long read(int file, void *to, unsigned long size) {
    if (size == SCRIPT_READ && ++reads == failing)
        return told(-EIO);
    if (size == SCRIPT_READ && reads == 1 && 0 <= cut && (unsigned long)cut < size)
        size = (unsigned long)cut;
    return told(call(SYS_READ, file, (long)to, (long)size));
}

long write(int file, const void *from, unsigned long size) {
    if (file != 1 || space < 0)
        return told(call(SYS_WRITE, file, (long)from, (long)size));
    if (space == 0 && size > 0)
        return told(-EIO);
    long taken = call(SYS_WRITE, file, (long)from, size < (unsigned long)space ? (long)size : space);
    space -= taken > 0 ? taken : 0;
    return told(taken);
}

__attribute__((destructor)) static void end(void) {
    char digits[20];
    int at = sizeof digits;
    long left = requests;
    digits[--at] = '\n';
    do
        digits[--at] = '0' + left % 10;
    while (left /= 10);
    if (tells)
        call(SYS_WRITE, 2, (long)(digits + at), (long)sizeof digits - at);
}
