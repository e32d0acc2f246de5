/* Exact distances between all pairs by igraph, for the benchmark. */
#include <igraph/igraph.h>
#include <stdlib.h>

struct exact {
    igraph_t graph;
    igraph_matrix_t distances;
};

/* A graph of n nodes and m links; `ends` has their 2m ends. */
struct exact *exact_new(size_t n, const uint16_t *ends, size_t m)
{
    struct exact *x = malloc(sizeof *x);
    igraph_vector_int_t edges;
    igraph_vector_int_init(&edges, (igraph_integer_t)(2 * m));
    for (size_t i = 0; i < 2 * m; i++)
        VECTOR(edges)[i] = ends[i];
    igraph_create(&x->graph, &edges, (igraph_integer_t)n, IGRAPH_UNDIRECTED);
    igraph_vector_int_destroy(&edges);
    igraph_matrix_init(&x->distances, (igraph_integer_t)n, (igraph_integer_t)n);
    return x;
}

/* Fills the matrix, which is kept from call to call. */
int exact_run(struct exact *x)
{
    return igraph_distances(&x->graph, &x->distances, igraph_vss_all(), igraph_vss_all(), IGRAPH_ALL);
}

/* The distance of a and b; a negative number where there is none. */
double exact_distance(const struct exact *x, size_t a, size_t b)
{
    double d = MATRIX(x->distances, (igraph_integer_t)a, (igraph_integer_t)b);
    return d == IGRAPH_INFINITY ? -1 : d;
}

void exact_free(struct exact *x)
{
    igraph_matrix_destroy(&x->distances);
    igraph_destroy(&x->graph);
    free(x);
}
