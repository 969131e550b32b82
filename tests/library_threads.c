/* Calls the library for the list in a file from four threads at once, each with 256 KB of stack and a mode of its own, twice.
   Prints the outputs, from the first mode on.  The status is 9 if the calls of a thread differ; otherwise it is that of the first mode. */
#include <cppunits.h>
#include <pthread.h>
#include <stdio.h>
#include <stdlib.h>
#include <string.h>

struct call {
    uint32_t mode, status, refusal;
    size_t length;
    uint8_t *out;
};

static uint8_t *list;
static size_t size;

static void *run(void *given)
{
    struct call *call = given;
    size_t again = 0;
    uint32_t status;

    call->status = cppunits_print(list, size, call->mode, NULL, 0, &call->length, &call->refusal);
    call->out = malloc(call->length + 1);
    if (!call->out)
        exit(8);
    status = cppunits_print(list, size, call->mode, call->out, call->length, &again, &call->refusal);
    if (status != call->status || again != call->length)
        exit(9);
    return NULL;
}

int main(int count, char **words)
{
    struct call calls[4];
    pthread_t threads[4];
    pthread_attr_t attributes;
    FILE *file = count == 2 ? fopen(words[1], "rb") : NULL;

    if (!file || fseek(file, 0, SEEK_END) || !(list = malloc((size_t)ftell(file) + 1)))
        return 8;
    size = (size_t)ftell(file);
    rewind(file);
    if (fread(list, 1, size, file) != size)
        return 8;
    fclose(file);
    pthread_attr_init(&attributes);
    pthread_attr_setstacksize(&attributes, 256 * 1024);
    for (uint32_t mode = 0; mode < 4; mode++) {
        calls[mode].mode = mode;
        if (pthread_create(&threads[mode], &attributes, run, &calls[mode]))
            return 8;
    }
    pthread_attr_destroy(&attributes);
    for (int mode = 0; mode < 4; mode++) {
        pthread_join(threads[mode], NULL);
        fwrite(calls[mode].out, 1, calls[mode].length, stdout);
        free(calls[mode].out);
    }
    free(list);
    return (int)calls[0].status;
}
