/* The loops' images, for bench/translate.
 *
 *   image        a line for each loop: its name, and the base that is also its entry
 *   image LOOP   writes the loop's image
 */
#include <stdio.h>
#include <stdlib.h>
#include <string.h>

#include "loops.h"

int main(int argc, char **argv)
{
    for (int i = 0; i < LOOPS; i++) {
        struct loop loop = loop_at(i);
        if (argc == 1)
            printf("%s %d\n", loop.name, LOOP_BASE);
        else if (strcmp(argv[1], loop.name) == 0)
            return fwrite(loop.image, 1, loop.length, stdout) == loop.length ? EXIT_SUCCESS : EXIT_FAILURE;
    }
    return argc == 1 ? EXIT_SUCCESS : EXIT_FAILURE;
}
