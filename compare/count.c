/* A counter for qemu's user emulator, which `compare/instructions` loads where valgrind cannot run the program: all
 * instructions of a run, told at its end. The declarations are those of qemu's plugin interface 1, of which this is all
 * that is used. */
#include <inttypes.h>
#include <stddef.h>
#include <stdint.h>
#include <stdio.h>

typedef uint64_t Id;
typedef struct qemu_plugin_tb Stretch;

enum { ADD_U64 = 0 };

extern void qemu_plugin_register_vcpu_tb_trans_cb(Id id, void (*translated)(Id, Stretch *));
extern void qemu_plugin_register_vcpu_tb_exec_inline(Stretch *stretch, int op, void *to, uint64_t add);
extern void qemu_plugin_register_atexit_cb(Id id, void (*ended)(Id, void *), void *given);
extern size_t qemu_plugin_tb_n_insns(const Stretch *stretch);

int qemu_plugin_version = 1;

static uint64_t instructions;

static void translated(Id id, Stretch *stretch)
{
    (void)id;
    qemu_plugin_register_vcpu_tb_exec_inline(stretch, ADD_U64, &instructions, qemu_plugin_tb_n_insns(stretch));
}

static void ended(Id id, void *given)
{
    (void)id;
    (void)given;
    fprintf(stderr, "instructions: %" PRIu64 "\n", instructions);
}

int qemu_plugin_install(Id id, const void *info, int argc, char **argv)
{
    (void)info;
    (void)argc;
    (void)argv;
    qemu_plugin_register_vcpu_tb_trans_cb(id, translated);
    qemu_plugin_register_atexit_cb(id, ended, NULL);
    return 0;
}
