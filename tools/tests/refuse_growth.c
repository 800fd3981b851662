/* Loaded before the C library by tools/tests/hostile: the growth of the number in REFUSE is refused, the others are met.
   Where SERIAL stands, whoever starts a thread waits until that thread is done, so that each run has the same schedule. Where
   ALONE stands, no thread is started.
   At the end these lines are written to file descriptor 3, where that is open: `grown N`; for each growth that belongs to the
   start of a thread `start N`, which is the last one of its caller before that start, or one that the C library asks for
   within it; and `threads N`, how many threads were started. A program with threads ends by _exit, which runs no destructor.
   Built without headers, for x86-64. */
typedef unsigned long size;
typedef int create(size *thread, const void *attributes, void *(*work)(void *), void *given);

extern void *__libc_malloc(size bytes);
extern void *__libc_calloc(size count, size bytes);
extern void *__libc_realloc(void *old, size bytes);
extern void *dlsym(void *library, const char *name);
extern char *getenv(const char *name);
extern long write(int file, const void *bytes, size count);
extern long syscall(long number, ...);
extern int sched_yield(void);
extern int *__errno_location(void);

enum { EXIT_GROUP = 231, MOST = 1024, NO_MEMORY = 12, NO_THREAD = 11 };

/* What a started thread is to do, and whether it is done. */
typedef struct {
  void *(*work)(void *);
  void *given;
  int done;
} job;

static size refused, growths, jobs, threads, starts, begun, serial, alone;
static size start[MOST];
static job job_of[MOST];
static create *started;
static __thread size last, starting;

__attribute__((constructor)) static void begin(void) {
  for (const char *at = getenv("REFUSE"); at && *at; at++) refused = refused * 10 + (size)(*at - '0');
  serial = getenv("SERIAL") != 0;
  alone = getenv("ALONE") != 0;
  started = (create *)dlsym((void *)-1L, "pthread_create");
  begun = 1;
}

static void is_of_start(size growth) {
  size at = __atomic_fetch_add(&starts, 1, __ATOMIC_SEQ_CST);
  if (at < MOST) start[at] = growth;
}

static int refuses(void) {
  if (!begun) return 0;
  last = __atomic_add_fetch(&growths, 1, __ATOMIC_SEQ_CST);
  if (starting) is_of_start(last);
  if (last != refused) return 0;
  *__errno_location() = NO_MEMORY;
  return 1;
}

void *malloc(size bytes) {
  return refuses() ? 0 : __libc_malloc(bytes);
}

void *calloc(size count, size bytes) {
  return refuses() ? 0 : __libc_calloc(count, bytes);
}

void *realloc(void *old, size bytes) {
  return refuses() ? 0 : __libc_realloc(old, bytes);
}

static void *does(void *given) {
  job *mine = given;
  void *result = mine->work(mine->given);
  __atomic_store_n(&mine->done, 1, __ATOMIC_SEQ_CST);
  return result;
}

int pthread_create(size *thread, const void *attributes, void *(*work)(void *), void *given) {
  if (alone) return NO_THREAD;
  size at = __atomic_fetch_add(&jobs, 1, __ATOMIC_SEQ_CST);
  if (at >= MOST) return started(thread, attributes, work, given);
  job *mine = &job_of[at];
  mine->work = work, mine->given = given;
  is_of_start(last);
  starting = 1;
  int fault = started(thread, attributes, does, mine);
  starting = 0;
  if (fault) return fault;
  __atomic_fetch_add(&threads, 1, __ATOMIC_SEQ_CST);
  while (serial && !__atomic_load_n(&mine->done, __ATOMIC_SEQ_CST)) sched_yield();
  return 0;
}

static void tell(const char *name, size number) {
  char told[40];
  size at = sizeof told, length = 0;
  told[--at] = '\n';
  do told[--at] = (char)('0' + number % 10); while (number /= 10);
  while (name[length]) length++;
  while (length) told[--at] = name[--length];
  if (write(3, told + at, sizeof told - at) < 0) return;
}

static void tell_all(void) {
  for (size at = 0; at < starts && at < MOST; at++) tell("start ", start[at]);
  tell("threads ", threads);
  tell("grown ", growths);
}

__attribute__((destructor)) static void end(void) {
  tell_all();
}

void _exit(int status) {
  tell_all();
  for (;;) syscall(EXIT_GROUP, status);
}
