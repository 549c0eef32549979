/* A plugin for qemu-x86_64 that counts the instructions which a program executes. Each block of code adds its number of them
   whenever it runs. Debian has no header for plugins, so what is used of it is declared here. */
#include <inttypes.h>
#include <stddef.h>
#include <stdio.h>

struct block;
extern void qemu_plugin_register_vcpu_tb_trans_cb(uint64_t id, void (*made)(uint64_t id, struct block *block));
extern void qemu_plugin_register_vcpu_tb_exec_inline(struct block *block, int operation, void *to, uint64_t number);
extern void qemu_plugin_register_atexit_cb(uint64_t id, void (*ended)(uint64_t id, void *data), void *data);
extern size_t qemu_plugin_tb_n_insns(const struct block *block);

enum { ADD_U64 = 0 };

int qemu_plugin_version = 1;
static uint64_t instructions;

static void made(uint64_t id, struct block *block)
{
    (void)id;
    qemu_plugin_register_vcpu_tb_exec_inline(block, ADD_U64, &instructions, qemu_plugin_tb_n_insns(block));
}

static void ended(uint64_t id, void *data)
{
    (void)id;
    (void)data;
    fprintf(stderr, "instructions %" PRIu64 "\n", instructions);
}

int qemu_plugin_install(uint64_t id, const void *info, int argc, char **argv)
{
    (void)info;
    (void)argc;
    (void)argv;
    qemu_plugin_register_vcpu_tb_trans_cb(id, made);
    qemu_plugin_register_atexit_cb(id, ended, NULL);
    return 0;
}
