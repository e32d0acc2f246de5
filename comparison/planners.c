/* Imports a DIMACS edge file and exports its survey: planners FILE OUT. Prints how many nodes and links are kept, or the refusal, and then
 * writes nothing. */
#include "puxerdau.h"
#include <stdio.h>
#include <stdlib.h>

#define LENGTH(list) (sizeof(list) / sizeof *(list))

static uint32_t starts[PUXERDAU_STARTS_LENGTH];
static uint16_t neighbours[PUXERDAU_NEIGHBOURS_LENGTH];
static uint8_t exported[PUXERDAU_FILE_LENGTH];
static struct puxerdau_survey survey = {0, starts, LENGTH(starts), neighbours, LENGTH(neighbours)};

static void require(int holds, const char *what)
{
    if (!holds) {
        perror(what);
        exit(EXIT_FAILURE);
    }
}

/* A whole file, which may be of any length. */
static uint8_t *read_file(const char *name, size_t *length)
{
    FILE *stream = fopen(name, "rb");
    require(stream != NULL, name);
    size_t room = 1 << 16;
    uint8_t *text = malloc(room);
    require(text != NULL, "memory");
    *length = 0;
    for (size_t more; (more = fread(text + *length, 1, room - *length, stream)) > 0;) {
        *length += more;
        if (*length == room)
            text = realloc(text, room *= 2);
        require(text != NULL, "memory");
    }
    require(!ferror(stream) && fclose(stream) == 0, name);
    return text;
}

int main(int count, char **words)
{
    if (count != 3) {
        fprintf(stderr, "usage: planners FILE OUT\n");
        return 2;
    }
    size_t length;
    uint8_t *text = read_file(words[1], &length);
    uint64_t answer = puxerdau_survey_import(&survey, text, length);
    free(text);
    if (puxerdau_refusal(answer) != 0) {
        printf("refused %u\n", puxerdau_refusal(answer));
        return 0;
    }
    printf("%u nodes, %u links\n", puxerdau_nodes(answer), puxerdau_links(answer));

    answer = puxerdau_survey_export(&survey, exported, LENGTH(exported));
    if (puxerdau_refusal(answer) != 0) {
        printf("export refused %u\n", puxerdau_refusal(answer));
        return 1;
    }
    FILE *stream = fopen(words[2], "wb");
    require(stream != NULL, words[2]);
    length = puxerdau_count(answer);
    require(fwrite(exported, 1, length, stream) == length && fclose(stream) == 0, words[2]);
    return 0;
}
