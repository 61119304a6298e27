/* Two processes and a ring in memory that they share: the camera writes the strips of pictures, the classifier reads them, and
 * what it read is compared with what was written. Exit 1 if anything differs.
 *
 *   strips ends|receiver RING_LEN PICTURES            by the plain ends, or by announced chunks
 *   strips ends|receiver RING_LEN PICTURES killed     the classifier is killed in the middle
 *   strips receiver RING_LEN PICTURES too-long        the camera announces a chunk in the middle that is too long for the ring, and
 *                                                     the classifier says so and ends with 1 */
#define _GNU_SOURCE
#include "strips.h"

#include <signal.h>
#include <stdio.h>
#include <stdlib.h>
#include <string.h>
#include <sys/mman.h>
#include <sys/socket.h>
#include <sys/wait.h>
#include <time.h>
#include <unistd.h>

enum { STRIPS = 64, LONGEST_STRIP = 65536, SHORTEST_RING = 9 };

/* What goes wrong in the middle of the pictures, and the word that asks for it. */
enum mishap { NO_MISHAP, KILLED, TOO_LONG, UNKNOWN };
static const char *const MISHAPS[] = {"", "killed", "too-long"};

struct asked {
  bool by_chunks;
  size_t ring_len;
  size_t pictures;
  enum mishap mishap;
};

void die(const char *what) {
  perror(what);
  exit(1);
}

void demand(stripring_refusal refusal) {
  if (refusal.number == 0)
    return;
  fprintf(stderr, "strips: refused with %lu\n", (unsigned long)refusal.number);
  exit(1);
}

void filmed(struct camera *c, size_t n) {
  bool before = c->written < c->kill_at;
  c->written += n;
  if (before && c->written >= c->kill_at)
    kill(c->classifier, SIGKILL);
}

uint8_t *next_place(const struct classifier *c) { return c->copy + *c->copied; }

size_t next_len(const struct classifier *c) {
  size_t rest = c->copy_len - *c->copied;
  return rest < READ_AT_MOST ? rest : READ_AT_MOST;
}

void classified(struct classifier *c, size_t n) { *c->copied += n; }

/* Pseudo-random numbers, the same in every run. */
static uint64_t random_number(uint64_t *state) {
  *state ^= *state << 13;
  *state ^= *state >> 7;
  *state ^= *state << 17;
  return *state;
}

static struct picture make_picture(size_t count) {
  uint64_t state = 20240229;
  struct picture p = {malloc(count * LONGEST_STRIP), 0, calloc(count, sizeof(struct strip)), count};
  for (size_t i = 0; i < count; i++) {
    size_t longest = LONGEST_STRIP >> random_number(&state) % 17;
    p.strips[i] = (struct strip){p.bytes + p.len, 1 + random_number(&state) % longest};
    p.len += p.strips[i].len;
  }
  for (size_t i = 0; i < p.len; i++)
    p.bytes[i] = random_number(&state) >> 32;
  return p;
}

/* Zeros that a child shares. They end where a page ends, and nobody may touch the next: a byte too far stops the process. */
static void *share(const char *name, size_t len) {
  size_t page = sysconf(_SC_PAGESIZE), whole = (len + page - 1) / page * page;
  int fd = memfd_create(name, 0);
  if (fd < 0 || ftruncate(fd, whole) < 0)
    die("memfd_create");
  uint8_t *place = mmap(NULL, whole + page, PROT_NONE, MAP_PRIVATE | MAP_ANONYMOUS, -1, 0);
  if (place == MAP_FAILED || mmap(place, whole, PROT_READ | PROT_WRITE, MAP_SHARED | MAP_FIXED, fd, 0) == MAP_FAILED)
    die("mmap");
  close(fd);
  return place + whole - len;
}

static double seconds(void) {
  struct timespec now;
  clock_gettime(CLOCK_MONOTONIC, &now);
  return now.tv_sec + now.tv_nsec / 1e9;
}

/* Starts the classifier's process, in which this does not return. */
static pid_t start(void (*classify)(struct classifier *), struct classifier *c, int other_socket) {
  pid_t child = fork();
  if (child < 0)
    die("fork");
  if (child > 0)
    return child;
  close(other_socket);
  classify(c);
  _exit(0);
}

/* A chunk that is too long fails the stream once everything before it is read. */
static bool ended_as_asked(enum mishap mishap, const struct camera *camera, size_t copied, int status) {
  size_t all = camera->picture->len;
  switch (mishap) {
  case KILLED:
    return WIFSIGNALED(status) && copied < all;
  case TOO_LONG:
    return WIFEXITED(status) && WEXITSTATUS(status) == 1 && copied == camera->written;
  default:
    return status == 0 && copied == all;
  }
}

/* How the classifier should have ended, and whether the first bytes it read are the first that were written. */
static bool as_it_should_be(enum mishap mishap, const struct camera *camera, const struct classifier *c, int status) {
  return ended_as_asked(mishap, camera, *c->copied, status) && memcmp(c->copy, camera->picture->bytes, *c->copied) == 0;
}

static void report(const struct asked *asked, const struct classifier *c, size_t all, bool right, double took) {
  printf("%s%s%s, ring of %zu bytes: %zu of %zu bytes read, %s, %.1f MB/s\n", asked->by_chunks ? "receiver" : "ends",
         asked->mishap == NO_MISHAP ? "" : " ", MISHAPS[asked->mishap], asked->ring_len, (size_t)*c->copied, all,
         right ? "the first that were written" : "WRONG", *c->copied / took / 1e6);
}

static bool run(const struct asked *asked, struct picture p) {
  int sockets[2];
  if (socketpair(AF_UNIX, SOCK_STREAM, 0, sockets) < 0)
    die("socketpair");
  uint8_t *ring = share("ring", asked->ring_len);
  struct classifier classifier = {
      ring, asked->ring_len, sockets[1], share("copy", p.len + 1), p.len + 1, share("copied", sizeof(atomic_size_t))};
  double before = seconds();
  pid_t child = start(asked->by_chunks ? classify_by_chunks : classify_by_ends, &classifier, sockets[0]);
  close(sockets[1]);
  size_t kill_at = asked->mishap == KILLED ? p.len / 2 : 0;
  struct camera camera = {&p, ring, asked->ring_len, sockets[0], kill_at, asked->mishap == TOO_LONG, child, 0};
  (asked->by_chunks ? film_by_chunks : film_by_ends)(&camera);
  close(sockets[0]);
  int status;
  if (waitpid(child, &status, 0) < 0)
    die("waitpid");
  bool right = as_it_should_be(asked->mishap, &camera, &classifier, status);
  report(asked, &classifier, p.len, right, seconds() - before);
  return right;
}

static enum mishap mishap_of(const char *word) {
  enum mishap mishap = NO_MISHAP;
  while (mishap < UNKNOWN && strcmp(word, MISHAPS[mishap]) != 0)
    mishap++;
  return mishap;
}

/* False for words that ask for nothing that can be run: a chunk needs a ring of 9 bytes, and the plain ends have no chunks. */
static bool understood(int argc, char **argv, struct asked *asked) {
  *asked = (struct asked){.by_chunks = argc > 1 && strcmp(argv[1], "receiver") == 0,
                          .ring_len = argc > 2 ? strtoull(argv[2], NULL, 10) : 0,
                          .pictures = argc > 3 ? strtoull(argv[3], NULL, 10) : 0,
                          .mishap = mishap_of(argc > 4 ? argv[4] : "")};
  bool by_ends = argc > 1 && strcmp(argv[1], "ends") == 0;
  if (asked->pictures == 0 || asked->mishap == UNKNOWN)
    return false;
  return asked->by_chunks ? asked->ring_len >= SHORTEST_RING
                          : by_ends && asked->ring_len >= 1 && asked->mishap != TOO_LONG;
}

int main(int argc, char **argv) {
  struct asked asked;
  if (!understood(argc, argv, &asked)) {
    fprintf(stderr, "usage: strips ends|receiver RING_LEN PICTURES [killed], or strips receiver RING_LEN PICTURES too-long; "
                    "a chunk needs a ring of 9 bytes\n");
    return 2;
  }
  struct picture picture = make_picture(asked.pictures * STRIPS);
  bool right = run(&asked, picture);
  free(picture.bytes);
  free(picture.strips);
  return right ? 0 : 1;
}
