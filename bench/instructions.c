/* Counts the instructions of one function under an emulator: a plugin for qemu-x86_64 (Debian's qemu-user). They are counted from the
 * function's first instruction to its return, with what it calls, as callgrind does it, and of all its calls together; at the end the sum
 * goes to standard error.
 *
 * The program says which function it is by a system call that does nothing: write(-1, function, 0). So no symbols are needed, and it does not
 * matter who loads the program or where.
 *
 * QEMU translates code block by block, and a call or a return ends a block. So a call is entered where a block begins at the function's first
 * address, and is left where one begins at the address behind the block before it, which ended in the call.
 *
 * PLUGIN_VERSION is the one of QEMU's interface: 1 up to QEMU 8, 2 from QEMU 9 on. What is used of it is the same in both, and declared here,
 * since Debian has no package of its header. */
#include <stdint.h>
#include <stdio.h>
#include <stdlib.h>

#ifndef PLUGIN_VERSION
#define PLUGIN_VERSION 1
#endif

typedef uint64_t plugin_id;
struct qemu_plugin_tb;
struct qemu_plugin_insn;
typedef void translated(plugin_id, struct qemu_plugin_tb *);
typedef void executed(unsigned processor, void *block);
typedef void system_call(plugin_id, unsigned processor, int64_t number, uint64_t, uint64_t, uint64_t, uint64_t, uint64_t, uint64_t, uint64_t,
                         uint64_t);
typedef void ended(plugin_id, void *);
void qemu_plugin_register_vcpu_tb_trans_cb(plugin_id, translated *);
void qemu_plugin_register_vcpu_tb_exec_cb(struct qemu_plugin_tb *, executed *, int registers, void *block);
void qemu_plugin_register_vcpu_syscall_cb(plugin_id, system_call *);
void qemu_plugin_register_atexit_cb(plugin_id, ended *, void *);
size_t qemu_plugin_tb_n_insns(const struct qemu_plugin_tb *);
struct qemu_plugin_insn *qemu_plugin_tb_get_insn(const struct qemu_plugin_tb *, size_t);
uint64_t qemu_plugin_insn_vaddr(const struct qemu_plugin_insn *);
size_t qemu_plugin_insn_size(const struct qemu_plugin_insn *);

__attribute__((visibility("default"))) int qemu_plugin_version = PLUGIN_VERSION;

enum { NO_REGISTERS = 0, WRITE = 1, PAGE = 4096, LONGEST_INSTRUCTION = 15 };

/* last is the address of the last instruction, which is doubtful where it may go over the end of a page: then QEMU puts it off to the next
 * block, but up to its release 8 a plugin is told of it in both. */
typedef struct {
    uint64_t start, last, end, instructions;
    int doubtful;
} block;

static uint64_t function, behind_call, counted;
static const block none, *before = &none;
static int inside;

static void execute(unsigned processor, void *data)
{
    (void)processor;
    const block *here = data;
    if (inside && here->start == behind_call) {
        inside = 0;
    } else if (!inside && here->start == function) {
        inside = 1;
        behind_call = before->end;
    } else if (inside && before->doubtful && here->start == before->last) {
        counted--;
    }
    if (inside) {
        counted += here->instructions;
    }
    before = here;
}

/* A block that is translated may be thrown away, which is not told: what is kept of it stays until the end. */
static void translate(plugin_id id, struct qemu_plugin_tb *translation)
{
    (void)id;
    size_t count = qemu_plugin_tb_n_insns(translation);
    block *here = malloc(sizeof *here);
    if (count == 0 || here == NULL) {
        fputs("a block that cannot be counted\n", stderr);
        exit(1);
    }
    struct qemu_plugin_insn *last = qemu_plugin_tb_get_insn(translation, count - 1);
    here->start = qemu_plugin_insn_vaddr(qemu_plugin_tb_get_insn(translation, 0));
    here->last = qemu_plugin_insn_vaddr(last);
    here->end = here->last + qemu_plugin_insn_size(last);
    here->instructions = count;
    here->doubtful = count > 1 && here->last % PAGE > PAGE - LONGEST_INSTRUCTION;
    qemu_plugin_register_vcpu_tb_exec_cb(translation, execute, NO_REGISTERS, here);
}

static void take_system_call(plugin_id id, unsigned processor, int64_t number, uint64_t file, uint64_t from, uint64_t length, uint64_t d,
                             uint64_t e, uint64_t f, uint64_t g, uint64_t h)
{
    (void)id, (void)processor, (void)d, (void)e, (void)f, (void)g, (void)h;
    if (number == WRITE && (uint32_t)file == UINT32_MAX && length == 0) {
        function = from;
    }
}

static void finish(plugin_id id, void *data)
{
    (void)id, (void)data;
    fprintf(stderr, "%llu\n", (unsigned long long)counted);
}

__attribute__((visibility("default"))) int qemu_plugin_install(plugin_id id, const void *machine, int count, char **words)
{
    (void)machine, (void)count, (void)words;
    qemu_plugin_register_vcpu_tb_trans_cb(id, translate);
    qemu_plugin_register_vcpu_syscall_cb(id, take_system_call);
    qemu_plugin_register_atexit_cb(id, finish, NULL);
    return 0;
}
