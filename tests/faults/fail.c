/* Makes system calls fail: a library that is loaded before the C library, by LD_PRELOAD.

   FAIL_AT      the number of the failing call among those that open, create or read a file, from 1
   FAIL_AFTER   the number of writes to standard output that succeed before each one fails
   FAIL_AS      the error with which a call fails; 0 lets a write take nothing
   FAIL_TAKES   the most bytes that a write to standard output takes
   FAIL_TELLS   a file descriptor that gets a byte for each call: `o` opens a file, `c` creates one, `r` reads one or
                standard input, `w` writes to standard output

   It needs no header, so that the compiler of the kit can make it. */

typedef unsigned long size;

extern char *getenv(const char *);
extern long strtol(const char *, char **, int);
extern int *__errno_location(void);

static int is_ready;
static long at;
static long after;
static long error;
static long takes;
static int told;
static long calls;
static long writes;

static long system_call(long number, long first, long second, long third, long fourth) {
  long answer;
  register long last __asm__("r10") = fourth;
  __asm__ volatile("syscall"
                   : "=a"(answer)
                   : "a"(number), "D"(first), "S"(second), "d"(third), "r"(last)
                   : "rcx", "r11", "memory");
  if (answer >= 0) return answer;
  *__errno_location() = (int)-answer;
  return -1;
}

static long number_of(const char *name, long otherwise) {
  const char *number = getenv(name);
  return number ? strtol(number, 0, 10) : otherwise;
}

static void tell(const char *call) {
  if (!is_ready) {
    is_ready = 1;
    at = number_of("FAIL_AT", 0);
    after = number_of("FAIL_AFTER", -1);
    error = number_of("FAIL_AS", 5);
    takes = number_of("FAIL_TAKES", -1);
    told = (int)number_of("FAIL_TELLS", 0);
  }
  if (told) system_call(1, told, (long)call, 1, 0);
}

static long fail(void) {
  if (error == 0) return 0;
  *__errno_location() = (int)error;
  return -1;
}

int openat(int folder, const char *path, int flags, int mode) {
  tell(flags & 0100 ? "c" : "o");
  if (++calls == at) return (int)fail();
  return (int)system_call(257, folder, (long)path, flags, mode);
}

int openat64(int folder, const char *path, int flags, int mode) { return openat(folder, path, flags, mode); }

int open(const char *path, int flags, int mode) { return openat(-100, path, flags, mode); }

int open64(const char *path, int flags, int mode) { return openat(-100, path, flags, mode); }

long read(int file, void *bytes, size count) {
  tell("r");
  if (++calls == at) return fail();
  return system_call(0, file, (long)bytes, (long)count, 0);
}

long write(int file, const void *bytes, size count) {
  if (file != 1) return system_call(1, file, (long)bytes, (long)count, 0);
  tell("w");
  if (after >= 0 && ++writes > after) return fail();
  if (takes >= 0 && count > (size)takes) count = (size)takes;
  return system_call(1, file, (long)bytes, (long)count, 0);
}
