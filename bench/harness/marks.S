/* The two ends of a measured region. Each is a function that begins with a 7-byte no-operation whose displacement is a
 * magic number: emulator/regions.c looks for those bytes, callgrind and the emulator's log for the names. */
        .text
        .globl  v2_mark_begin, v2_mark_end
        .type   v2_mark_begin, @function
        .type   v2_mark_end, @function
v2_mark_begin:
        .byte   0x0f, 0x1f, 0x80, 0x56, 0x32, 0x42, 0x01
        ret
        .size   v2_mark_begin, . - v2_mark_begin
v2_mark_end:
        .byte   0x0f, 0x1f, 0x80, 0x56, 0x32, 0x45, 0x01
        ret
        .size   v2_mark_end, . - v2_mark_end
        .section .note.GNU-stack, "", @progbits
