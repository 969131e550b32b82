/* Prints the tokens of a list of at most a megabyte with their kinds: print < LIST */
#include <cppunits.h>
#include <stdio.h>
#include <stdlib.h>
#include <string.h>

int main(void)
{
    static uint8_t list[1 << 20];
    size_t size = fread(list, 1, sizeof list, stdin), room = 0, length = 1 << 16;
    uint8_t *out = NULL;
    uint32_t status, refusal;

    do {
        room = length;
        free(out);
        out = malloc(room + 1);
        if (!out)
            return CPPUNITS_MEMORY;
        status = cppunits_print(list, size, CPPUNITS_DUMP, out, room, &length, &refusal);
    } while (length > room);
    if (status > CPPUNITS_FAULT) {
        fprintf(stderr, "status %u, refusal %u\n", (unsigned)status, (unsigned)refusal);
        free(out);
        return (int)status;
    }
    out[length] = '\0';
    for (char *line = (char *)out, *end; *line; line = end + 1) {
        end = strchr(line, '\n');
        *end = '\0';
        if (!strncmp(line, "tok ", 4)) {
            /* tok, the two locations, the kind and a sign, the spelling */
            char *kind = strchr(strchr(line + 4, ' ') + 1, ' ') + 1;
            printf("%c %s\n", *kind, kind + 3);
        }
    }
    free(out);
    return (int)status;
}
