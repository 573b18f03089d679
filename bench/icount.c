// A QEMU plugin that counts the instructions a program executes: by region (mark.h), by function in each region, and in all.
// The calls are declared by hand, since Debian packages no qemu-plugin.h; only those that QEMU 7 to 10 share are used. One thread.
#define _POSIX_C_SOURCE 200809L
#include <stdint.h>
#include <stdio.h>
#include <stdlib.h>
#include <string.h>

typedef uint64_t Id;
typedef unsigned long long ull;
struct tb;
struct insn;
extern void qemu_plugin_register_vcpu_tb_trans_cb(Id, void (*)(Id, struct tb *));
extern void qemu_plugin_register_vcpu_tb_exec_cb(struct tb *, void (*)(unsigned, void *), int flags, void *);
extern void qemu_plugin_register_vcpu_insn_exec_cb(struct insn *, void (*)(unsigned, void *), int flags, void *);
extern void qemu_plugin_register_vcpu_syscall_cb(Id, void (*)(Id, unsigned, int64_t, uint64_t, uint64_t, uint64_t, uint64_t,
                                                              uint64_t, uint64_t, uint64_t, uint64_t));
extern void qemu_plugin_register_atexit_cb(Id, void (*)(Id, void *), void *);
extern size_t qemu_plugin_tb_n_insns(const struct tb *);
extern struct insn *qemu_plugin_tb_get_insn(const struct tb *, size_t);
extern const char *qemu_plugin_insn_symbol(const struct insn *);
#define SEEN __attribute__((visibility("default")))
SEEN int qemu_plugin_version = API;

enum { CLOSE = 3, MARK = 0x1c000000, REGIONS = 1024, COST = 3 /* instructions of the end mark itself */ };
struct block { uint64_t but_last, sum; const char *name; struct block *next; };
struct share { unsigned region; const char *name; uint64_t sum; };
static struct block *blocks; // their sums: since the last mark that begins a region
static struct share share[1 << 16];
static size_t shares;
static struct { uint64_t sum, times; } region[REGIONS];
static uint64_t total, start;
static unsigned now;
static FILE *out;

static void add(struct block *b, uint64_t n) { b->sum += n; total += n; }
static void run(unsigned cpu, void *b) { (void)cpu; add(b, ((struct block *)b)->but_last); }
static void last(unsigned cpu, void *b) { (void)cpu; add(b, 1); }

// The last instruction of a block counts by itself: where it crosses into the next page QEMU 7 lists it here and runs it in the next.
static void translate(Id id, struct tb *tb) {
  const char *s = qemu_plugin_insn_symbol(qemu_plugin_tb_get_insn(tb, 0));
  struct block *b = calloc(1, sizeof *b);
  (void)id;
  *b = (struct block){qemu_plugin_tb_n_insns(tb) - 1, 0, s && *s ? strdup(s) : "?", blocks};
  blocks = b;
  qemu_plugin_register_vcpu_tb_exec_cb(tb, run, 0, b);
  qemu_plugin_register_vcpu_insn_exec_cb(qemu_plugin_tb_get_insn(tb, b->but_last), last, 0, b);
}

static void begin(void) {
  start = total;
  for (struct block *b = blocks; b; b = b->next) b->sum = 0;
}

// Adds the sums of the blocks to the shares of their functions.
static void end(void) {
  region[now].sum += total - start - COST, region[now].times++;
  for (struct block *b = blocks; b; b = b->next) {
    size_t i = 0;
    while (i < shares && (share[i].region != now || strcmp(share[i].name, b->name))) i++;
    if (b->sum == 0 || i == sizeof share / sizeof *share) continue;
    if (i == shares) share[shares++] = (struct share){now, b->name, 0};
    share[i].sum += b->sum;
  }
}

// close(MARK) begins, close(MARK + 1) ends, close(MARK + 2 + r) chooses region r.
static void call(Id id, unsigned cpu, int64_t number, uint64_t fd, uint64_t b, uint64_t c, uint64_t d, uint64_t e, uint64_t f,
                 uint64_t g, uint64_t h) {
  (void)id, (void)cpu, (void)b, (void)c, (void)d, (void)e, (void)f, (void)g, (void)h;
  if (number != CLOSE || fd < MARK || fd >= MARK + 2 + REGIONS) return;
  if (fd == MARK) begin();
  else if (fd == MARK + 1) end();
  else now = fd - MARK - 2;
}

// By region, then the costliest first.
static int order(const void *x, const void *y) {
  const struct share *a = x, *b = y;
  if (a->region != b->region) return a->region < b->region ? -1 : 1;
  return a->sum < b->sum ? 1 : a->sum > b->sum ? -1 : strcmp(a->name, b->name);
}

static void finish(Id id, void *p) {
  (void)id, (void)p;
  for (int r = 0; r < REGIONS; r++)
    if (region[r].times) fprintf(out, "region %d %llu %llu\n", r, (ull)region[r].times, (ull)region[r].sum);
  qsort(share, shares, sizeof *share, order);
  for (size_t i = 0; i < shares; i++)
    fprintf(out, "function %u %s %llu\n", share[i].region, share[i].name, (ull)share[i].sum);
  fprintf(out, "total %llu\n", (ull)total);
  fclose(out);
}

SEEN int qemu_plugin_install(Id id, const void *info, int argc, char **argv) {
  (void)info;
  out = argc == 1 && !strncmp(argv[0], "out=", 4) ? fopen(argv[0] + 4, "w") : 0;
  if (!out) return 1;
  qemu_plugin_register_vcpu_tb_trans_cb(id, translate);
  qemu_plugin_register_vcpu_syscall_cb(id, call);
  qemu_plugin_register_atexit_cb(id, finish, 0);
  return 0;
}
