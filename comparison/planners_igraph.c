/* Reads a DIMACS edge file by the library igraph: planners_igraph FILE. Prints how many nodes and links it has. */
#include <igraph/igraph.h>
#include <stdio.h>

int main(int count, char **words)
{
    if (count != 2) {
        fprintf(stderr, "usage: planners_igraph FILE\n");
        return 2;
    }
    FILE *stream = fopen(words[1], "r");
    if (stream == NULL) {
        perror(words[1]);
        return 1;
    }
    igraph_t graph;
    igraph_strvector_t problem;
    igraph_vector_int_t label;
    igraph_integer_t source = 0, target = 0;
    igraph_vector_t capacity;
    igraph_strvector_init(&problem, 0);
    igraph_vector_int_init(&label, 0);
    igraph_vector_init(&capacity, 0);
    /* its name speaks of flows, but it reads files of the kind `edge` too; a file that it does not take ends the program */
    igraph_read_graph_dimacs_flow(&graph, stream, &problem, &label, &source, &target, &capacity, IGRAPH_UNDIRECTED);
    printf("%ld nodes, %ld links\n", (long)igraph_vcount(&graph), (long)igraph_ecount(&graph));
    return 0;
}
