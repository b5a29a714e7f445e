/* A QEMU plugin that counts the instructions of a program between calls of two functions in it, icount_start and icount_stop.
   For qemu-user 7.2, that of Debian 12 (plugin interface 1); the few declarations of qemu-plugin.h that are needed stand below.

     cc -shared -fPIC -O2 -o icount.so icount.c
     qemu-x86_64 -plugin ./icount.so,out=FILE PROGRAM ARGS..

   FILE gets a line for each interval: the count, and NAME=COUNT for each function that had a part in it. It holds the body of
   icount_start and the call of icount_stop too: measure an empty interval and subtract it. A string instruction with a rep
   prefix counts once for each round, since QEMU runs it so. */
#include <inttypes.h>
#include <stdio.h>
#include <stdlib.h>
#include <string.h>

typedef uint64_t qemu_plugin_id_t;
struct qemu_plugin_tb;
struct qemu_plugin_insn;
enum qemu_plugin_cb_flags { QEMU_PLUGIN_CB_NO_REGS };
enum qemu_plugin_op { QEMU_PLUGIN_INLINE_ADD_U64 };
void qemu_plugin_register_vcpu_tb_trans_cb(qemu_plugin_id_t, void (*)(qemu_plugin_id_t, struct qemu_plugin_tb *));
void qemu_plugin_register_vcpu_insn_exec_cb(struct qemu_plugin_insn *, void (*)(unsigned, void *), enum qemu_plugin_cb_flags, void *);
void qemu_plugin_register_vcpu_insn_exec_inline(struct qemu_plugin_insn *, enum qemu_plugin_op, void *, uint64_t);
size_t qemu_plugin_tb_n_insns(const struct qemu_plugin_tb *);
struct qemu_plugin_insn *qemu_plugin_tb_get_insn(const struct qemu_plugin_tb *, size_t);
const char *qemu_plugin_insn_symbol(const struct qemu_plugin_insn *);

__attribute__((visibility("default"))) int qemu_plugin_version = 1;

/* The count of each function. */
struct function {
  const char *name;
  uint64_t count;
  struct function *next;
};
static struct function *functions;
static FILE *out;

static struct function *function(const char *name) {
  for (struct function *f = functions; f; f = f->next)
    if (!strcmp(f->name, name)) return f;
  struct function *f = calloc(1, sizeof *f);
  if (!f) abort();
  *f = (struct function){strdup(name), 0, functions};
  return functions = f;
}

static void at_start(unsigned cpu, void *data) {
  for (struct function *f = functions; f; f = f->next) f->count = 0;
}

static void at_stop(unsigned cpu, void *data) {
  uint64_t sum = 0;
  for (struct function *f = functions; f; f = f->next) sum += f->count;
  fprintf(out, "%" PRIu64, sum);
  for (struct function *f = functions; f; f = f->next)
    if (f->count) fprintf(out, " %s=%" PRIu64, f->name, f->count);
  fputs("\n", out);
  fflush(out);
}

/* A call ends a block, so a marker's first instruction is the first of its block. The count is added instruction by
   instruction, since a block may be left early. */
static void at_translation(qemu_plugin_id_t id, struct qemu_plugin_tb *tb) {
  size_t n = qemu_plugin_tb_n_insns(tb);
  for (size_t i = 0; i < n; i++) {
    struct qemu_plugin_insn *insn = qemu_plugin_tb_get_insn(tb, i);
    const char *symbol = qemu_plugin_insn_symbol(insn);
    const char *name = symbol ? symbol : "?";
    if (i == 0 && !strcmp(name, "icount_start")) qemu_plugin_register_vcpu_insn_exec_cb(insn, at_start, QEMU_PLUGIN_CB_NO_REGS, NULL);
    if (i == 0 && !strcmp(name, "icount_stop")) qemu_plugin_register_vcpu_insn_exec_cb(insn, at_stop, QEMU_PLUGIN_CB_NO_REGS, NULL);
    qemu_plugin_register_vcpu_insn_exec_inline(insn, QEMU_PLUGIN_INLINE_ADD_U64, &function(name)->count, 1);
  }
}

__attribute__((visibility("default"))) int qemu_plugin_install(qemu_plugin_id_t id, const void *info, int argc, char **argv) {
  if (argc != 1 || strncmp(argv[0], "out=", 4)) return -1;
  out = fopen(argv[0] + 4, "w");
  if (!out) return -1;
  qemu_plugin_register_vcpu_tb_trans_cb(id, at_translation);
  return 0;
}
