#include "bytes.h"

#include <stdio.h>
#include <stdlib.h>
#include <string.h>

enum { MOST = 1024 };

static char texts[MOST][TEXT_SIZE];
static uint64_t count;

void bytes_clear(void) { count = 0; }

uint64_t handle_of(const char *text)
{
    for (uint64_t i = 0; i < count; i++)
        if (strcmp(texts[i], text) == 0)
            return i + 1;
    if (count == MOST || strlen(text) >= TEXT_SIZE) {
        fprintf(stderr, "wake: no room for more bytes\n");
        exit(2);
    }
    strcpy(texts[count], text);
    return ++count;
}

const char *text_of(uint64_t handle) { return handle >= 1 && handle <= count ? texts[handle - 1] : ""; }
