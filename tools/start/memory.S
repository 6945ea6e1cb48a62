# The functions of memory that compilers call without being asked to. A library's own take their place where it is linked.

        .section .text.memory, "ax"
        .weak   memcpy
        .weak   memmove
        .weak   memset
        .weak   memcmp
        .type   memcpy, @function
        .type   memmove, @function
        .type   memset, @function
        .type   memcmp, @function

# void *memmove(void *to, const void *from, size_t count), and memcpy
memmove:
        bgtu    a0, a1, 3f              # upwards, from the first byte
memcpy:
        mv      t0, a0
        add     t1, a1, a2
1:
        beq     a1, t1, 2f
        lbu     t2, 0(a1)
        sb      t2, 0(t0)
        addi    a1, a1, 1
        addi    t0, t0, 1
        j       1b
2:
        ret
3:
        add     t0, a0, a2              # downwards, from the last byte
        add     t1, a1, a2
4:
        beq     t1, a1, 2b
        addi    t1, t1, -1
        addi    t0, t0, -1
        lbu     t2, 0(t1)
        sb      t2, 0(t0)
        j       4b
        .size   memcpy, . - memcpy
        .size   memmove, . - memmove

# void *memset(void *to, int byte, size_t count)
memset:
        mv      t0, a0
        add     t1, a0, a2
1:
        beq     t0, t1, 2f
        sb      a1, 0(t0)
        addi    t0, t0, 1
        j       1b
2:
        ret
        .size   memset, . - memset

# int memcmp(const void *a, const void *b, size_t count)
memcmp:
        add     t1, a0, a2
1:
        beq     a0, t1, 2f
        lbu     t2, 0(a0)
        lbu     t3, 0(a1)
        addi    a0, a0, 1
        addi    a1, a1, 1
        beq     t2, t3, 1b
        sub     a0, t2, t3
        ret
2:
        li      a0, 0
        ret
        .size   memcmp, . - memcmp
