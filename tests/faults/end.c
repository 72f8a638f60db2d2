/* Ends the program before one of its calls: a library that is loaded before the C library, by LD_PRELOAD.

   END_AT     the number of the call before which the program is killed, from 1, among those that change a file or a folder:
              opening to write, writing, setting a length, an owner or permissions, linking, renaming and removing

   It needs no header, so that the compiler of the kit can make it. */

typedef unsigned long size;

extern char *getenv(const char *);
extern long strtol(const char *, char **, int);
extern int *__errno_location(void);

static long calls;

static long system_call(long number, long first, long second, long third, long fourth) {
  long answer;
  register long last __asm__("r10") = fourth;
  __asm__ volatile("syscall"
                   : "=a"(answer)
                   : "a"(number), "D"(first), "S"(second), "d"(third), "r"(last)
                   : "rcx", "r11", "memory");
  if (answer >= 0) return answer;
  *__errno_location() = (int)-answer;
  return -1;
}

static void count(void) {
  const char *at = getenv("END_AT");
  if (at && ++calls == strtol(at, 0, 10)) {
    long self = system_call(39, 0, 0, 0, 0);
    system_call(62, self, 9, 0, 0);
  }
}

int openat(int folder, const char *path, int flags, int mode) {
  if (flags & 3) count();
  return (int)system_call(257, folder, (long)path, flags, mode);
}

int openat64(int folder, const char *path, int flags, int mode) { return openat(folder, path, flags, mode); }

int open(const char *path, int flags, int mode) { return openat(-100, path, flags, mode); }

int open64(const char *path, int flags, int mode) { return openat(-100, path, flags, mode); }

long write(int file, const void *bytes, size length) {
  if (file > 2) count();
  return system_call(1, file, (long)bytes, (long)length, 0);
}

int ftruncate(int file, long length) {
  count();
  return (int)system_call(77, file, length, 0, 0);
}

int ftruncate64(int file, long length) { return ftruncate(file, length); }

int rename(const char *from, const char *to) {
  count();
  return (int)system_call(82, (long)from, (long)to, 0, 0);
}

int link(const char *from, const char *to) {
  count();
  return (int)system_call(86, (long)from, (long)to, 0, 0);
}

int unlink(const char *path) {
  count();
  return (int)system_call(87, (long)path, 0, 0, 0);
}

int chmod(const char *path, int mode) {
  count();
  return (int)system_call(90, (long)path, mode, 0, 0);
}

int chown(const char *path, int owner, int group) {
  count();
  return (int)system_call(92, (long)path, owner, group, 0);
}
