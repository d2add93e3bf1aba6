/* Counts the x86-64 instructions that a program executes under an emulator, and how many of them divide. A count is the
   same from run to run and from machine to machine, where times are not. tools/count builds and uses it. */
#include <inttypes.h>
#include <stddef.h>
#include <stdint.h>
#include <stdio.h>

/* The part of the emulator's plugin interface, version 1, that is used here. */
struct qemu_plugin_tb;
struct qemu_plugin_insn;
extern size_t qemu_plugin_tb_n_insns(const struct qemu_plugin_tb *);
extern struct qemu_plugin_insn *qemu_plugin_tb_get_insn(const struct qemu_plugin_tb *, size_t);
extern const void *qemu_plugin_insn_data(const struct qemu_plugin_insn *);
extern size_t qemu_plugin_insn_size(const struct qemu_plugin_insn *);
extern void qemu_plugin_register_vcpu_tb_trans_cb(uint64_t id, void (*)(uint64_t, struct qemu_plugin_tb *));
extern void qemu_plugin_register_vcpu_tb_exec_inline(struct qemu_plugin_tb *, int add, void *, uint64_t);
extern void qemu_plugin_register_atexit_cb(uint64_t id, void (*)(uint64_t, void *), void *);

__attribute__((visibility("default"))) int qemu_plugin_version = 1;
static uint64_t instructions, divisions;

/* F6 and F7 with 6 or 7 in the middle of the next byte are div and idiv; prefixes may stand before them. */
static int divides(const uint8_t *bytes, size_t size) {
    size_t i = 0;
    while (i + 1 < size && (bytes[i] == 0x66 || bytes[i] == 0xf2 || bytes[i] == 0xf3 || (bytes[i] & 0xf0) == 0x40)) i++;
    return i + 1 < size && (bytes[i] & 0xfe) == 0xf6 && (bytes[i + 1] >> 3 & 7) >= 6;
}

static void translated(uint64_t id, struct qemu_plugin_tb *block) {
    (void)id;
    size_t n = qemu_plugin_tb_n_insns(block);
    uint64_t dividing = 0;
    for (size_t i = 0; i < n; i++) {
        const struct qemu_plugin_insn *one = qemu_plugin_tb_get_insn(block, i);
        dividing += divides(qemu_plugin_insn_data(one), qemu_plugin_insn_size(one));
    }
    qemu_plugin_register_vcpu_tb_exec_inline(block, 0, &instructions, n);
    if (dividing) qemu_plugin_register_vcpu_tb_exec_inline(block, 0, &divisions, dividing);
}

static void ended(uint64_t id, void *unused) {
    (void)id, (void)unused;
    fprintf(stderr, "%" PRIu64 " %" PRIu64 "\n", instructions, divisions);
}

__attribute__((visibility("default"))) int qemu_plugin_install(uint64_t id, const void *info, int argc, char **argv) {
    (void)info, (void)argc, (void)argv;
    qemu_plugin_register_vcpu_tb_trans_cb(id, translated);
    qemu_plugin_register_atexit_cb(id, ended, NULL);
    return 0;
}
