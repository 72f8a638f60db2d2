/* Makes allocations fail: a library that is loaded before the C library, by LD_PRELOAD.

   REFUSE           the number of the allocation that fails, from 1
   REFUSE_GOES_ON   if set, every later allocation fails too
   REFUSE_BETWEEN   if set, only allocations after the first `write` of the process and before the second count
   REFUSE_TELLS     a file descriptor that gets one byte for each failed allocation

   It needs no header, so that the compiler of the kit can make it. */

typedef unsigned long size;

extern void *__libc_malloc(size);
extern void *__libc_calloc(size, size);
extern void *__libc_realloc(void *, size);
extern void *__libc_memalign(size, size);
extern char *getenv(const char *);
extern long strtol(const char *, char **, int);
extern int *__errno_location(void);

static int is_ready;
static long first;
static int goes_on;
static int between;
static int told;
static long writes;
static long requests;

static long write_now(int file, const void *bytes, size count) {
  long answer;
  __asm__ volatile("syscall" : "=a"(answer) : "a"(1L), "D"((long)file), "S"(bytes), "d"(count) : "rcx", "r11", "memory");
  if (answer < 0) {
    *__errno_location() = (int)-answer;
    return -1;
  }
  return answer;
}

static long number_of(const char *name) {
  const char *number = getenv(name);
  return number ? strtol(number, 0, 10) : 0;
}

static void get_ready(void) {
  is_ready = 1;
  first = number_of("REFUSE");
  told = (int)number_of("REFUSE_TELLS");
  goes_on = getenv("REFUSE_GOES_ON") != 0;
  between = getenv("REFUSE_BETWEEN") != 0;
}

static int is_refused(void) {
  if (!is_ready) get_ready();
  if (first == 0 || (between && writes != 1)) return 0;
  requests++;
  if (requests != first && !(goes_on && requests > first)) return 0;
  if (told) write_now(told, "!", 1);
  *__errno_location() = 12;
  return 1;
}

void *malloc(size bytes) { return is_refused() ? 0 : __libc_malloc(bytes); }

void *calloc(size count, size bytes) { return is_refused() ? 0 : __libc_calloc(count, bytes); }

void *realloc(void *old, size bytes) { return is_refused() ? 0 : __libc_realloc(old, bytes); }

void *aligned_alloc(size alignment, size bytes) { return is_refused() ? 0 : __libc_memalign(alignment, bytes); }

void *memalign(size alignment, size bytes) { return is_refused() ? 0 : __libc_memalign(alignment, bytes); }

int posix_memalign(void **place, size alignment, size bytes) {
  void *found = is_refused() ? 0 : __libc_memalign(alignment, bytes);
  if (!found) return 12;
  *place = found;
  return 0;
}

long write(int file, const void *bytes, size count) {
  writes++;
  return write_now(file, bytes, count);
}

long __write(int file, const void *bytes, size count) {
  writes++;
  return write_now(file, bytes, count);
}
