/*
 * count.c - a plugin of qemu-user that counts the guest instructions a program executes,
 * and prints the number to standard error at its end. QEMU translates a program block by
 * block; each block's length is added whenever the block is entered.
 *
 * It declares here what it uses of QEMU's plugin interface, whose header Debian does not
 * pack. API is the interface's version that the installed QEMU wants.
 */
#include <stddef.h>
#include <stdint.h>
#include <stdio.h>

typedef uint64_t qemu_plugin_id_t;
struct qemu_plugin_tb; /* a translated block */
enum qemu_plugin_cb_flags { QEMU_PLUGIN_CB_NO_REGS };
typedef void (*on_translated)(qemu_plugin_id_t id, struct qemu_plugin_tb *block);
typedef void (*on_executed)(unsigned int processor, void *data);
typedef void (*on_end)(qemu_plugin_id_t id, void *data);
void qemu_plugin_register_vcpu_tb_trans_cb(qemu_plugin_id_t id, on_translated call);
void qemu_plugin_register_vcpu_tb_exec_cb(struct qemu_plugin_tb *block, on_executed call,
                                          enum qemu_plugin_cb_flags flags, void *data);
void qemu_plugin_register_atexit_cb(qemu_plugin_id_t id, on_end call, void *data);
size_t qemu_plugin_tb_n_insns(const struct qemu_plugin_tb *block);

int qemu_plugin_version = API;

static uint64_t executed;

static void add(unsigned int processor, void *length) {
    (void)processor;
    executed += (uintptr_t)length;
}

static void watch(qemu_plugin_id_t id, struct qemu_plugin_tb *block) {
    (void)id;
    void *length = (void *)(uintptr_t)qemu_plugin_tb_n_insns(block);
    qemu_plugin_register_vcpu_tb_exec_cb(block, add, QEMU_PLUGIN_CB_NO_REGS, length);
}

static void print(qemu_plugin_id_t id, void *data) {
    (void)id, (void)data;
    fprintf(stderr, "instructions=%llu\n", (unsigned long long)executed);
}

int qemu_plugin_install(qemu_plugin_id_t id, const void *info, int count, char **words) {
    (void)info, (void)count, (void)words;
    qemu_plugin_register_vcpu_tb_trans_cb(id, watch);
    qemu_plugin_register_atexit_cb(id, print, NULL);
    return 0;
}
