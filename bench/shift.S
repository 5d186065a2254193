/* Moves the code that is linked after it by SHIFT bytes. Where a loop lies in its cache lines can change its
 * speed by a fifth, on either side, so one placement says little. */
    .text
    .p2align 6
    .skip SHIFT
    .section .note.GNU-stack,"",%progbits
