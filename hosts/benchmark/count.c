/* A plugin for qemu that counts the instructions a program executes and prints the number when it ends. Debian has no header for plugins, so
   the few names that are used are declared here, as qemu's documentation of plugins (version 1) has them. */
#include <stddef.h>
#include <stdint.h>
#include <stdio.h>

struct block;
enum { ADD = 0, VERSION = 1 };

void qemu_plugin_register_vcpu_tb_trans_cb(uint64_t plugin, void (*translated)(uint64_t, struct block *));
void qemu_plugin_register_vcpu_tb_exec_inline(struct block *block, int operation, void *counter, uint64_t number);
void qemu_plugin_register_atexit_cb(uint64_t plugin, void (*ended)(uint64_t, void *), void *given);
size_t qemu_plugin_tb_n_insns(const struct block *block);

int qemu_plugin_version = VERSION;

static uint64_t count;

/* Whenever this block is executed, its instructions are added. */
static void translated(uint64_t plugin, struct block *block) {
    (void)plugin;
    qemu_plugin_register_vcpu_tb_exec_inline(block, ADD, &count, qemu_plugin_tb_n_insns(block));
}

static void ended(uint64_t plugin, void *given) {
    (void)plugin;
    (void)given;
    fprintf(stderr, "%llu\n", (unsigned long long)count);
}

int qemu_plugin_install(uint64_t plugin, const void *about, int words, char **word) {
    (void)about;
    (void)words;
    (void)word;
    qemu_plugin_register_vcpu_tb_trans_cb(plugin, translated);
    qemu_plugin_register_atexit_cb(plugin, ended, NULL);
    return 0;
}
