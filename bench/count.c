/* A plugin for Debian's qemu-user (7.2): counts the instructions of the program that it runs, and prints the sum; or,
   with `to=FILE`, writes there those between each call of a function `bench_mark` and the next, one a line.
   Debian ships no header for plugins: the few names of the interface (version 1) are declared here. */
#include <stdint.h>
#include <stdio.h>
#include <stdlib.h>
#include <string.h>

typedef uint64_t qemu_plugin_id_t;
struct qemu_plugin_tb;
struct qemu_plugin_insn;
enum { INLINE_ADD_U64 = 0 };
enum { NO_REGISTERS = 0 };

typedef void translated_call(qemu_plugin_id_t id, struct qemu_plugin_tb *block);
typedef void reached_call(unsigned processor, void *user);
typedef void ended_call(qemu_plugin_id_t id, void *user);

void qemu_plugin_register_vcpu_tb_trans_cb(qemu_plugin_id_t id, translated_call *call);
void qemu_plugin_register_vcpu_insn_exec_inline(struct qemu_plugin_insn *instruction, int what, void *at, uint64_t add);
void qemu_plugin_register_vcpu_insn_exec_cb(struct qemu_plugin_insn *instruction, reached_call *call, int registers,
                                            void *user);
void qemu_plugin_register_atexit_cb(qemu_plugin_id_t id, ended_call *call, void *user);
size_t qemu_plugin_tb_n_insns(const struct qemu_plugin_tb *block);
struct qemu_plugin_insn *qemu_plugin_tb_get_insn(const struct qemu_plugin_tb *block, size_t index);
const char *qemu_plugin_insn_symbol(const struct qemu_plugin_insn *instruction);

int qemu_plugin_install(qemu_plugin_id_t id, const void *info, int count, char **words);

int qemu_plugin_version = 1;

static uint64_t instructions, at_last_mark;
static FILE *to;

static void marked(unsigned processor, void *user)
{
    (void)processor;
    (void)user;
    fprintf(to, "%llu\n", (unsigned long long)(instructions - at_last_mark));
    at_last_mark = instructions;
}

/* A block never starts inside bench_mark but at its first instruction: it has no jump, and is called. */
static void translated(qemu_plugin_id_t id, struct qemu_plugin_tb *block)
{
    size_t length = qemu_plugin_tb_n_insns(block);
    (void)id;
    for (size_t i = 0; i < length; i++) {
        struct qemu_plugin_insn *instruction = qemu_plugin_tb_get_insn(block, i);
        qemu_plugin_register_vcpu_insn_exec_inline(instruction, INLINE_ADD_U64, &instructions, 1);
        if (i == 0 && to) {
            const char *symbol = qemu_plugin_insn_symbol(instruction);
            if (symbol && strcmp(symbol, "bench_mark") == 0)
                qemu_plugin_register_vcpu_insn_exec_cb(instruction, marked, NO_REGISTERS, NULL);
        }
    }
}

static void ended(qemu_plugin_id_t id, void *user)
{
    (void)id;
    (void)user;
    if (to)
        fclose(to);
    else
        fprintf(stderr, "instructions %llu\n", (unsigned long long)instructions);
}

int qemu_plugin_install(qemu_plugin_id_t id, const void *info, int count, char **words)
{
    (void)info;
    for (int i = 0; i < count; i++)
        if (strncmp(words[i], "to=", 3) == 0 && !(to = fopen(words[i] + 3, "w")))
            return 1;
    qemu_plugin_register_vcpu_tb_trans_cb(id, translated);
    qemu_plugin_register_atexit_cb(id, ended, NULL);
    return 0;
}
