/* SPDX-License-Identifier: MIT OR Apache-2.0 */
/*
 * A shared library over the archive, as a plug-in is one, and with HOST the program that loads it: the archive's code runs from where the
 * loader put it, is the version that the header says, and none of its names is handed on.
 */
#ifdef HOST

#include <dlfcn.h>
#include <stdio.h>

int main(int argc, char **argv) {
    void *library = argc > 1 ? dlopen(argv[1], RTLD_NOW) : NULL;
    if (library == NULL) {
        printf("plug-in: not loaded\n");
        return 1;
    }
    int (*answers)(void);
    *(void **)&answers = dlsym(library, "plugin_answers");
    if (answers == NULL || !answers() || dlsym(library, "sofa_version") != NULL) {
        printf("plug-in: no or a wrong answer, or its names are seen\n");
        return 1;
    }
    return 0;
}

#else

#include "sofa.h"

int plugin_answers(void);

int plugin_answers(void) {
    float values[3] = {0, 2, 0};
    sofa_refusal r = sofa_to_spherical(values, 3);
    return sofa_version() == SOFA_VERSION && r.reason == 0 && values[0] == 90 && values[2] == 2 && sofa_root(9) == 3;
}

#endif
