/* A plugin for qemu-user (Debian's 7.2; plugin API 1) that counts the guest's instructions and prints their number to standard error when the guest ends.
   The few declarations of the API that it needs stand here, since Debian ships no header of it. Every instruction adds one when it is run, so a block that
   is left early is counted right. */
#include <inttypes.h>
#include <stdbool.h>
#include <stddef.h>
#include <stdio.h>

struct block;
struct instruction;
enum { ADD_U64 = 0 };

extern size_t qemu_plugin_tb_n_insns(const struct block *);
extern struct instruction *qemu_plugin_tb_get_insn(const struct block *, size_t);
extern void qemu_plugin_register_vcpu_tb_trans_cb(uint64_t id, void (*translated)(uint64_t, struct block *));
extern void qemu_plugin_register_vcpu_insn_exec_inline(struct instruction *, int operation, void *cell, uint64_t by);
extern void qemu_plugin_register_atexit_cb(uint64_t id, void (*ended)(uint64_t, void *), void *);

__attribute__((visibility("default"))) int qemu_plugin_version = 1;

static uint64_t instructions;

static void translated(uint64_t id, struct block *b) {
    (void)id;
    for (size_t i = qemu_plugin_tb_n_insns(b); i-- > 0;) qemu_plugin_register_vcpu_insn_exec_inline(qemu_plugin_tb_get_insn(b, i), ADD_U64, &instructions, 1);
}

static void ended(uint64_t id, void *none) {
    (void)id, (void)none;
    fprintf(stderr, "instructions %" PRIu64 "\n", instructions);
}

__attribute__((visibility("default"))) int qemu_plugin_install(uint64_t id, const void *info, int words, char **word) {
    (void)info, (void)words, (void)word;
    qemu_plugin_register_vcpu_tb_trans_cb(id, translated);
    qemu_plugin_register_atexit_cb(id, ended, NULL);
    return 0;
}
