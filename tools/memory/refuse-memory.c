// Loaded before the C library. Before `main` it reads the file that REFUSE_CASES names, and runs the program once for each case there, as a process of its
// own. At each request for memory this process waits for two copies of itself: in the first this request is refused, in the second this and all later
// ones. So each request is refused in turn, and what comes before it runs once. A case is these texts, each ended by a NUL:
//
//   kind      `steady` where the last request is asked for in vain: all is to be answered where that is refused, and all behind it; or empty
//   input     what the program reads
//   wanted    what it is to print
//   begun     of what it is to print, the beginning that may stand there where memory is refused
//   told      what it may print instead, with status 0; or empty
//   status    the status where memory is refused
//   error     what stands on standard error then
//
// It prints each fault, and at last the numbers of refused runs, of those that went on, and of faults. REFUSE_PART of REFUSE_PARTS is tried.
#define _GNU_SOURCE
#include <errno.h>
#include <stdio.h>
#include <stdlib.h>
#include <string.h>
#include <sys/mman.h>
#include <sys/wait.h>
#include <unistd.h>

extern void *__libc_malloc(size_t), *__libc_calloc(size_t, size_t), *__libc_realloc(void *, size_t);
extern void *__libc_memalign(size_t, size_t);

enum { KIND, INPUT, WANTED, BEGUN, TOLD, STATUS, ERROR, TEXTS };
enum outcome { UNREFUSED, REFUSED, WENT_ON, FAULT };
// What a process of a case does at a request: it grants it, waits for two copies in which it is refused, or refuses it.
enum { GRANT, WAIT, REFUSE };

// What all processes count, and how the last run of a case ended in which all later requests were refused too.
static struct { long refusals, went_on, faults; enum outcome last; } *counts;
static int at_request = GRANT, files[3], said;
static long number;
static char *texts[TEXTS];

// The file behind a descriptor of the program, with this text.
static void fill(int descriptor, const char *text) {
  int file = files[descriptor];
  if (ftruncate(file, 0) || pwrite(file, text, strlen(text), 0) < 0 || lseek(file, 0, SEEK_SET)) _exit(1);
}

// Whether what the program wrote there is this text; or else, whether it is the beginning of it.
static int has_written(int descriptor, const char *text, int whole) {
  size_t size = lseek(files[descriptor], 0, SEEK_END), room = strlen(text);
  if (whole ? size != room : size > room) return 0;
  if (size == 0) return 1;
  char *written = mmap(NULL, size, PROT_READ, MAP_SHARED, files[descriptor], 0);
  if (written == MAP_FAILED) _exit(1);
  int same = memcmp(written, text, size) == 0;
  munmap(written, size);
  return same;
}

// How a run ended, in which a request was refused, or this and all later ones, or none.
static enum outcome end_of(pid_t child, int refused, int all) {
  int status;
  if (child < 0 || waitpid(child, &status, 0) < 0) _exit(1);
  status = WIFEXITED(status) ? WEXITSTATUS(status) : -1;
  int is_whole = status == 0 && has_written(1, texts[WANTED], 1) && has_written(2, "", 1);
  if (!refused) return is_whole ? UNREFUSED : FAULT;
  if (is_whole && (!all || *texts[KIND])) return WENT_ON;
  if (status == atoi(texts[STATUS]) && has_written(1, texts[BEGUN], 0) && has_written(2, texts[ERROR], 1)) return REFUSED;
  return *texts[TOLD] && status == 0 && has_written(1, texts[TOLD], 1) ? REFUSED : FAULT;
}

static void tell(const char *fault, long request) {
  int kept = at_request;
  // (to print asks for memory too)
  at_request = GRANT;
  counts->faults++;
  dprintf(said, fault, request, texts[INPUT]);
  at_request = kept;
}

// Refuses a request in two copies of this process, one after the other. Answers whether this is such a copy.
static int is_copy(void) {
  off_t at[3], size[3];
  for (int i = 0; i < 3; i++) at[i] = lseek(files[i], 0, SEEK_CUR), size[i] = lseek(files[i], 0, SEEK_END), lseek(files[i], at[i], SEEK_SET);
  number++;
  for (int all = 0; all < 2; all++) {
    pid_t child = fork();
    if (child == 0) {
      at_request = all ? REFUSE : GRANT;
      return 1;
    }
    enum outcome outcome = end_of(child, 1, all);
    counts->refusals++;
    counts->went_on += outcome == WENT_ON;
    if (all) counts->last = outcome;
    if (outcome == FAULT) tell(all ? "another answer where request %ld is refused, and all later ones: %s" : "another answer where request %ld is refused: %s", number);
    // (copies share the places in the files, and what stands there)
    for (int i = 0; i < 3; i++)
      if (ftruncate(files[i], size[i]) || lseek(files[i], at[i], SEEK_SET) < 0) _exit(1);
  }
  return 0;
}

static int is_refused(void) {
  if (at_request == GRANT || (at_request == WAIT && !is_copy())) return 0;
  errno = ENOMEM;
  return 1;
}

void *malloc(size_t size) { return is_refused() ? NULL : __libc_malloc(size); }
void *calloc(size_t count, size_t size) { return is_refused() ? NULL : __libc_calloc(count, size); }
void *realloc(void *old, size_t size) { return is_refused() ? NULL : __libc_realloc(old, size); }
void *aligned_alloc(size_t align, size_t size) { return is_refused() ? NULL : __libc_memalign(align, size); }
int posix_memalign(void **out, size_t align, size_t size) {
  *out = is_refused() ? NULL : __libc_memalign(align, size);
  return *out ? 0 : ENOMEM;
}

// Runs the program over a case. In the new process it answers nothing, and goes on to `main`.
static int run(void) {
  fill(0, texts[INPUT]), fill(1, ""), fill(2, "");
  counts->last = UNREFUSED;
  pid_t child = fork();
  if (child == 0) {
    for (int i = 0; i < 3; i++) dup2(files[i], i);
    at_request = WAIT;
    return 0;
  }
  if (end_of(child, 0, 0) == FAULT) tell("another answer where %ld requests are refused: %s", 0);
  if (*texts[KIND] && counts->last != WENT_ON) tell("memory is needed behind the last request, %ld: %s", 1);
  return 1;
}

// The text of a file, and its end.
static char *text_of(const char *name, char **end) {
  FILE *file = fopen(name, "r");
  if (!file) _exit(1);
  fseek(file, 0, SEEK_END);
  long size = ftell(file);
  rewind(file);
  char *text = __libc_malloc(size);
  if (!text || fread(text, 1, size, file) != (size_t)size) _exit(1);
  *end = text + size;
  fclose(file);
  return text;
}

static long set(const char *name) {
  const char *text = getenv(name);
  return text ? atol(text) : 0;
}

__attribute__((constructor)) static void begin(void) {
  const char *name = getenv("REFUSE_CASES");
  if (!name) return;
  long part = set("REFUSE_PART"), parts = set("REFUSE_PARTS");
  counts = mmap(NULL, sizeof *counts, PROT_READ | PROT_WRITE, MAP_SHARED | MAP_ANONYMOUS, -1, 0);
  if (counts == MAP_FAILED || (said = dup(1)) < 0) _exit(1);
  for (int i = 0; i < 3; i++) files[i] = memfd_create("case", MFD_CLOEXEC);
  char *end, *text = text_of(name, &end);
  for (long i = 0; text < end; i++) {
    for (int k = 0; k < TEXTS; k++) texts[k] = text, text += strlen(text) + 1;
    if (i % parts == part && !run()) return;
  }
  dprintf(1, "%ld %ld %ld\n", counts->refusals, counts->went_on, counts->faults);
  _exit(0);
}
