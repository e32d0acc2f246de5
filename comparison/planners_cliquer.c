/* Reads a DIMACS file, text or binary, by the library cliquer, and writes what it read as text: planners_cliquer FILE OUT [NODES]. Prints
 * how many nodes and links it has. With a third argument only so many of the first nodes are kept. */
#include <cliquer/graph.h>
#include <stdio.h>
#include <stdlib.h>

int main(int count, char **words)
{
    if (count < 3) {
        fprintf(stderr, "usage: planners_cliquer FILE OUT [NODES]\n");
        return 2;
    }
    graph_t *graph = graph_read_dimacs_file(words[1]);
    if (graph == NULL) {
        printf("not read\n");
        return 0;
    }
    if (count > 3 && atoi(words[3]) < graph->n)
        graph_resize(graph, atoi(words[3]));
    printf("%d nodes, %d links\n", graph->n, graph_edge_count(graph));
    return graph_write_dimacs_ascii_file(graph, "written by cliquer", words[2]) ? 0 : 1;
}
