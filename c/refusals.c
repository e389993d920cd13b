/* Writes every refusal that the header knows, with its sentence. */
#include <inttypes.h>
#include <stdio.h>
#include <string.h>

#include "vpindex.h"

int main(void) {
    const char *unknown = vpindex_refusal_text(UINT32_MAX);
    for (uint32_t refusal = 0; refusal < 100; refusal++) {
        const char *text = vpindex_refusal_text(refusal);
        if (strcmp(text, unknown) != 0) {
            printf("%" PRIu32 " %s\n", refusal, text);
        }
    }
    return 0;
}
