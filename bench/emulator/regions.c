/* QEMU user-mode plugin: the exact number of guest instructions executed between two marks. The marks are no-operations
 * with a magic displacement (harness/marks.S), so the same program also runs on a real processor.
 *   qemu-x86_64 -plugin regions.so,out=FILE program
 * FILE gets the count of each region, a line each, in the order in which they ended. */
#include "qemu_plugin_api.h"
#include <inttypes.h>
#include <stdio.h>
#include <string.h>

__attribute__((visibility("default"))) int qemu_plugin_version = 1;

static const unsigned char mark_begin[7] = {0x0f, 0x1f, 0x80, 'V', '2', 'B', 0x01};
static const unsigned char mark_end[7] = {0x0f, 0x1f, 0x80, 'V', '2', 'E', 0x01};

static uint64_t executed; /* all instructions so far but the marks */
static uint64_t at_begin;
static bool inside;
static FILE *out;

static void on_begin(unsigned int vcpu, void *none)
{
    (void)vcpu; (void)none;
    at_begin = executed;
    inside = true;
}

static void on_end(unsigned int vcpu, void *none)
{
    (void)vcpu; (void)none;
    if (!inside) return;
    inside = false;
    fprintf(out, "%" PRIu64 "\n", executed - at_begin);
    fflush(out);
}

static void on_translate(qemu_plugin_id_t id, struct qemu_plugin_tb *tb)
{
    (void)id;
    for (size_t i = 0, n = qemu_plugin_tb_n_insns(tb); i < n; i++) {
        struct qemu_plugin_insn *insn = qemu_plugin_tb_get_insn(tb, i);
        const void *d = qemu_plugin_insn_data(insn);
        bool seven = qemu_plugin_insn_size(insn) == 7;
        if (seven && !memcmp(d, mark_begin, 7))
            qemu_plugin_register_vcpu_insn_exec_cb(insn, on_begin, QEMU_PLUGIN_CB_NO_REGS, NULL);
        else if (seven && !memcmp(d, mark_end, 7))
            qemu_plugin_register_vcpu_insn_exec_cb(insn, on_end, QEMU_PLUGIN_CB_NO_REGS, NULL);
        else
            qemu_plugin_register_vcpu_insn_exec_inline(insn, QEMU_PLUGIN_INLINE_ADD_U64, &executed, 1);
    }
}

static void on_exit_guest(qemu_plugin_id_t id, void *none) { (void)id; (void)none; fclose(out); }

__attribute__((visibility("default")))
int qemu_plugin_install(qemu_plugin_id_t id, const qemu_info_t *info, int argc, char **argv)
{
    (void)info;
    out = stderr;
    for (int i = 0; i < argc; i++) {
        if (!strncmp(argv[i], "out=", 4)) {
            if (!(out = fopen(argv[i] + 4, "w"))) { perror(argv[i] + 4); return 1; }
        } else {
            fprintf(stderr, "regions: out=FILE, not %s\n", argv[i]);
            return 1;
        }
    }
    qemu_plugin_register_vcpu_tb_trans_cb(id, on_translate);
    qemu_plugin_register_atexit_cb(id, on_exit_guest, NULL);
    return 0;
}
