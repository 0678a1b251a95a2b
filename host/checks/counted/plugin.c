/* A plugin of QEMU that counts the instructions of a program and prints them to standard error at its end.

   What it needs of the interface is declared here (QEMU 7.2, its version 1), so that no header is. */
#include <stddef.h>
#include <stdint.h>
#include <stdio.h>

typedef uint64_t id;
struct qemu_info_t;
struct qemu_plugin_tb;

/* The one operation on a counter. */
enum { ADD = 0 };

void qemu_plugin_register_vcpu_tb_trans_cb(id, void (*)(id, struct qemu_plugin_tb *));
void qemu_plugin_register_atexit_cb(id, void (*)(id, void *), void *);
void qemu_plugin_register_vcpu_tb_exec_inline(struct qemu_plugin_tb *, int operation, void *counter, uint64_t added);
size_t qemu_plugin_tb_n_insns(const struct qemu_plugin_tb *);

int qemu_plugin_version = 1;

static uint64_t instructions;

/* A block that is translated: each run of it counts its instructions. */
static void translated(id plugin, struct qemu_plugin_tb *block)
{
    (void)plugin;
    qemu_plugin_register_vcpu_tb_exec_inline(block, ADD, &instructions, qemu_plugin_tb_n_insns(block));
}

static void ended(id plugin, void *unused)
{
    (void)plugin, (void)unused;
    fprintf(stderr, "%lu\n", (unsigned long)instructions);
}

int qemu_plugin_install(id plugin, const struct qemu_info_t *info, int argc, char **argv)
{
    (void)info, (void)argc, (void)argv;
    qemu_plugin_register_vcpu_tb_trans_cb(plugin, translated);
    qemu_plugin_register_atexit_cb(plugin, ended, 0);
    return 0;
}
