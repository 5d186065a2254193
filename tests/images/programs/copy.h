/* gcc copies records by this function where that is shorter, and leaves it to a freestanding program to have one. */
#ifndef COPY_H
#define COPY_H

void *memcpy(void *to, const void *from, __SIZE_TYPE__ count);

void *memcpy(void *to, const void *from, __SIZE_TYPE__ count)
{
    for (__SIZE_TYPE__ i = 0; i < count; i++) {
        ((unsigned char *)to)[i] = ((const unsigned char *)from)[i];
        __asm__ volatile("" ::: "memory"); /* else gcc makes a call of memcpy out of the loop */
    }
    return to;
}

#endif
