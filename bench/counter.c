/* A plugin of QEMU's that counts the instructions of a run and writes their number last. Debian has no header for
 * plugins: what is used of it is declared here, as version 1 of their interface has it. */
#include <stddef.h>
#include <stdint.h>
#include <stdio.h>

typedef uint64_t plugin;
struct qemu_plugin_tb;
size_t qemu_plugin_tb_n_insns(const struct qemu_plugin_tb *block);
void qemu_plugin_register_vcpu_tb_trans_cb(plugin id, void (*met)(plugin, struct qemu_plugin_tb *));
void qemu_plugin_register_vcpu_tb_exec_inline(struct qemu_plugin_tb *block, int add, void *to, uint64_t number);
void qemu_plugin_register_atexit_cb(plugin id, void (*ended)(plugin, void *), void *with);
int qemu_plugin_install(plugin id, const void *about, int count, char **words);

int qemu_plugin_version = 1;
static uint64_t counted;

/* A block of instructions without a jump adds their number each time that it is run. */
static void block_met(plugin id, struct qemu_plugin_tb *block) {
    (void)id;
    qemu_plugin_register_vcpu_tb_exec_inline(block, 0, &counted, qemu_plugin_tb_n_insns(block));
}

static void ended(plugin id, void *with) {
    (void)id;
    (void)with;
    fprintf(stderr, "instructions %llu\n", (unsigned long long)counted);
}

int qemu_plugin_install(plugin id, const void *about, int count, char **words) {
    (void)about;
    (void)count;
    (void)words;
    qemu_plugin_register_vcpu_tb_trans_cb(id, block_met);
    qemu_plugin_register_atexit_cb(id, ended, NULL);
    return 0;
}
