/* The five loops that the cores' benchmarks run: the old core the words, the new core their translations. After an
 * edit, bench/translate makes the translations again, and the programs in whole.c may take other numbers. */
#include "loops.h"

#include "numbers.h"
#include "words.h"

static struct loop loop_of(const char *name, const uint32_t *words, size_t count, size_t closing)
{
    struct loop loop = { .name = name, .length = 4 * count, .closing = closing };
    for (size_t i = 0; i < count; i++)
        put_word(loop.image + 4 * i, words[i]);
    return loop;
}

#define LOOP_OF(name, words, closing) loop_of(name, words, sizeof words / sizeof words[0], closing)

static struct loop arithmetic_loop(void)
{
    const uint32_t words[] = {
        compute_constant(OP3_ADD, 1, 1, 1),          /*  0 loop: add   r1, 1, r1 */
        compute(OP3_ADD, 2, 2, 1),                   /*  1       add   r2, r1, r2 */
        compute(OP3_XOR, 3, 3, 2),                   /*  2       xor   r3, r2, r3 */
        compute_constant(OP3_SLL, 4, 3, 3),          /*  3       sll   r3, 3, r4 */
        compute_constant(OP3_SRL, 5, 2, 5),          /*  4       srl   r2, 5, r5 */
        compute(OP3_SUB, 6, 4, 5),                   /*  5       sub   r4, r5, r6 */
        compute(OP3_ADD | OP3_CC, 7, 7, 6),          /*  6       addcc r7, r6, r7 */
        compute_constant(OP3_ADDX, 8, 8, 0),         /*  7       addx  r8, 0, r8 */
        compute_constant(OP3_SRA, 9, 7, 2),          /*  8       sra   r7, 2, r9 */
        compute_constant(OP3_AND | OP3_CC, 0, 1, 7), /*  9       andcc r1, 7, r0 */
        branch(COND_NE, false, -10),                 /* 10       bne   loop */
        compute(OP3_XOR, 3, 3, 9),                   /* 11       xor   r3, r9, r3 */
        compute(OP3_SUB | OP3_CC, 2, 2, 8),          /* 12       subcc r2, r8, r2 */
        branch(COND_ALWAYS, false, -13),             /* 13       ba    loop */
        compute(OP3_ORN, 10, 2, 10),                 /* 14       orn   r2, r10, r10 */
    };
    return LOOP_OF("arithmetic", words, 13);
}

static struct loop memory_loop(void)
{
    const uint32_t words[] = {
        sethi(16, DATA_BASE),                       /*  0       sethi r16 */
        compute_constant(OP3_ADD, 1, 1, 4),         /*  1 loop: add   r1, 4, r1 */
        compute_constant(OP3_AND, 1, 1, 0xFFC),     /*  2       and   r1, 0xffc, r1 */
        access(OP3_LD, 2, 16, 1),                   /*  3       ld    [r16 + r1], r2 */
        compute(OP3_ADD, 2, 2, 6),                  /*  4       add   r2, r6, r2 */
        access(OP3_ST, 2, 16, 1),                   /*  5       st    r2, [r16 + r1] */
        compute(OP3_ADD, 3, 16, 1),                 /*  6       add   r16, r1, r3 */
        access_constant(OP3_LDUB, 4, 3, 1),         /*  7       ldub  [r3 + 1], r4 */
        access_constant(OP3_STB, 4, 3, 3),          /*  8       stb   r4, [r3 + 3] */
        access_constant(OP3_LDUH, 5, 3, 2),         /*  9       lduh  [r3 + 2], r5 */
        compute(OP3_ADD, 5, 5, 1),                  /* 10       add   r5, r1, r5 */
        access_constant(OP3_STH, 5, 3, 0),          /* 11       sth   r5, [r3] */
        branch(COND_ALWAYS, false, -11),            /* 12       ba    loop */
        compute(OP3_XOR, 6, 6, 5),                  /* 13       xor   r6, r5, r6 */
    };
    return LOOP_OF("memory", words, 12);
}

static struct loop mixed_loop(void)
{
    const uint32_t words[] = {
        sethi(16, DATA_BASE),                         /*  0       sethi r16 */
        call(14),                                     /*  1 loop: call  leaf */
        compute_constant(OP3_ADD, 8, 8, 1),           /*  2       add   r8, 1, r8 */
        compute_constant(OP3_AND | OP3_CC, 0, 9, 3),  /*  3       andcc r9, 3, r0 */
        branch(COND_E, true, 3),                      /*  4       be,a  at7 */
        compute_constant(OP3_ADD, 10, 10, 1),         /*  5       add   r10, 1, r10 */
        compute(OP3_XOR, 10, 10, 9),                  /*  6       xor   r10, r9, r10 */
        access(OP3_LD, 12, 16, 11),                   /*  7 at7:  ld    [r16 + r11], r12 */
        compute(OP3_ADD | OP3_CC, 12, 12, 9),         /*  8       addcc r12, r9, r12 */
        branch(COND_NE, false, 3),                    /*  9       bne   at12 */
        access(OP3_ST, 12, 16, 11),                   /* 10       st    r12, [r16 + r11] */
        compute_constant(OP3_SUB, 9, 9, 1),           /* 11       sub   r9, 1, r9 */
        access_constant(OP3_LDSB, 14, 16, 2),         /* 12 at12: ldsb  [r16 + 2], r14 */
        branch(COND_ALWAYS, true, -12),               /* 13       ba,a  loop */
        0,                                            /* 14       never run */
        compute_constant(OP3_SLL, 13, 8, 2),          /* 15 leaf: sll   r8, 2, r13 */
        compute_constant(OP3_AND, 11, 13, 0xFFC),     /* 16       and   r13, 0xffc, r11 */
        compute_constant(OP3_SUB, 13, 13, 5),         /* 17       sub   r13, 5, r13 */
        compute_constant(OP3_JMPL, 0, 15, 8),         /* 18       jmpl  r15 + 8, r0 */
        compute(OP3_XOR, 9, 9, 13),                   /* 19       xor   r9, r13, r9 */
    };
    return LOOP_OF("mixed", words, 13);
}

/* A generator of 64 bits, in r2 and r1, whose numbers are smoothed in r7; a product is rounded by its low word. */
static struct loop products_loop(void)
{
    const uint32_t words[] = {
        sethi(16, 0x4C957F2D),                          /*  0       sethi  r16 */
        compute_constant(OP3_OR, 16, 16, 0x32D),        /*  1       or     r16, 0x32d, r16 */
        sethi(17, 0x5851F42D),                          /*  2       sethi  r17 */
        compute_constant(OP3_OR, 17, 17, 0x02D),        /*  3       or     r17, 0x2d, r17 */
        compute(OP3_UMUL, 3, 1, 16),                    /*  4 loop: umul   r1, r16, r3 */
        read_y(4),                                      /*  5       rd     y, r4 */
        compute(OP3_UMUL, 5, 1, 17),                    /*  6       umul   r1, r17, r5 */
        compute(OP3_UMUL | OP3_CC, 6, 2, 16),           /*  7       umulcc r2, r16, r6 */
        compute_constant(OP3_ADD | OP3_CC, 1, 3, 2047), /*  8       addcc  r3, 2047, r1 */
        compute(OP3_ADD, 5, 5, 6),                      /*  9       add    r5, r6, r5 */
        compute(OP3_ADDX, 2, 4, 5),                     /* 10       addx   r4, r5, r2 */
        compute_constant(OP3_SRA, 8, 2, 3),             /* 11       sra    r2, 3, r8 */
        compute(OP3_SUB, 8, 8, 7),                      /* 12       sub    r8, r7, r8 */
        compute(OP3_SMUL | OP3_CC, 0, 8, 17),           /* 13       smulcc r8, r17, r0 */
        read_y(8),                                      /* 14       rd     y, r8 */
        branch(COND_NEG, true, 2),                      /* 15       bneg,a at17 */
        compute_constant(OP3_ADD, 7, 7, 1),             /* 16       add    r7, 1, r7 */
        compute(OP3_ADD, 7, 7, 8),                      /* 17 at17: add    r7, r8, r7 */
        compute_constant(OP3_SMUL, 9, 7, -819),         /* 18       smul   r7, -819, r9 */
        write_y(2, 9),                                  /* 19       wr     r2, r9, y */
        branch(COND_ALWAYS, false, -16),                /* 20       ba     loop */
        read_y(10),                                     /* 21       rd     y, r10 */
    };
    return LOOP_OF("products", words, 20);
}

/* Calls as a compiler makes them: a function with a window of its own calls another one, at nesting 2, and a leaf.
 * Of the 28 steps of a turn four, one in seven, are a save or a restore. */
static struct loop calls_loop(void)
{
    const uint32_t words[] = {
        sethi(18, DATA_BASE),                    /*  0       sethi   l2 */
        compute_constant(OP3_ADD, 16, 16, 4),    /*  1 loop: add     l0, 4, l0 */
        compute_constant(OP3_AND, 9, 16, 0xFFC), /*  2       and     l0, 0xffc, o1 */
        compute(OP3_OR, 8, 0, 18),               /*  3       or      g0, l2, o0 */
        call(5),                                 /*  4       call    f */
        compute(OP3_OR, 10, 0, 17),              /*  5       or      g0, l1, o2 */
        compute(OP3_XOR, 17, 17, 8),             /*  6       xor     l1, o0, l1 */
        branch(COND_ALWAYS, false, -6),          /*  7       ba      loop */
        compute(OP3_ADD, 19, 19, 17),            /*  8       add     l3, l1, l3 */
        compute_constant(OP3_SAVE, 14, 14, -96), /*  9 f:    save    sp, -96, sp */
        access(OP3_LD, 16, 24, 25),              /* 10       ld      [i0 + i1], l0 */
        compute(OP3_ADD, 8, 16, 26),             /* 11       add     l0, i2, o0 */
        call(7),                                 /* 12       call    g */
        compute(OP3_SUB, 9, 26, 25),             /* 13       sub     i2, i1, o1 */
        access(OP3_ST, 8, 24, 25),               /* 14       st      o0, [i0 + i1] */
        call(11),                                /* 15       call    leaf */
        compute(OP3_XOR, 8, 8, 16),              /* 16       xor     o0, l0, o0 */
        compute_constant(OP3_JMPL, 0, 31, 8),    /* 17       jmpl    i7 + 8, g0 */
        compute(OP3_RESTORE, 8, 0, 8),           /* 18       restore g0, o0, o0 */
        compute_constant(OP3_SAVE, 14, 14, -96), /* 19 g:    save    sp, -96, sp */
        compute_constant(OP3_SLL, 16, 25, 3),    /* 20       sll     i1, 3, l0 */
        compute(OP3_SUB | OP3_CC, 24, 24, 16),   /* 21       subcc   i0, l0, i0 */
        branch(COND_NEG, true, 2),               /* 22       bneg,a  at24 */
        compute(OP3_XOR, 24, 24, 25),            /* 23       xor     i0, i1, i0 */
        compute_constant(OP3_JMPL, 0, 31, 8),    /* 24 at24: jmpl    i7 + 8, g0 */
        compute(OP3_RESTORE, 8, 24, 25),         /* 25       restore i0, i1, o0 */
        compute_constant(OP3_SRL, 9, 8, 5),      /* 26 leaf: srl     o0, 5, o1 */
        compute_constant(OP3_JMPL, 0, 15, 8),    /* 27       jmpl    o7 + 8, g0 */
        compute(OP3_ADD, 8, 8, 9),               /* 28       add     o0, o1, o0 */
    };
    return LOOP_OF("calls", words, 7);
}

static struct loop empty_loop(void)
{
    const uint32_t words[] = {
        branch(COND_ALWAYS, false, 0), /*  0 loop: ba    loop */
        sethi(0, 0),                   /*  1       nop */
    };
    return LOOP_OF("nothing", words, 0);
}

struct loop loop_at(int number)
{
    switch (number) {
    case 0: return arithmetic_loop();
    case 1: return memory_loop();
    case 2: return mixed_loop();
    case 3: return products_loop();
    case 4: return calls_loop();
    default: return empty_loop();
    }
}

void first_data(uint8_t data[DATA_LENGTH])
{
    for (size_t i = 0; i < DATA_LENGTH; i++)
        data[i] = (uint8_t)(i * 37 + 11);
}
