/* Builds the types of recipes with an MPI library's own constructors, and compares their bounds and data with what standard input says.

   The input is numbers: how many recipes; of each one how many steps; of each step kind, source, name, a, b, c as in docs/recipes.md, then
   the items of an indexed step or a subarray, three numbers each, then lower bound, extent, number of entries, their width, and their
   displacements in order. Of each difference a line is printed, and a last line with the numbers of recipes, steps and differences.

   The data are compared by packing a buffer whose bytes tell their own place: in three passes the low, the middle and the high byte of it. */

#include <mpi.h>
#include <stdio.h>
#include <stdlib.h>
#include <string.h>

enum { CONTIGUOUS = 1, VECTOR, INDEXED, SUBARRAY, RESIZED };
enum { MOST_STEPS = 32, MOST_ENTRIES = 256, MOST_ITEMS = 1000, LENGTH = 1048576, PASSES = 3 };

struct step {
    int kind, source, name, a, b, c;
    int items[MOST_ITEMS][3];
    long lower, extent;
    int entries, width;
    int places[MOST_ENTRIES];
};

static unsigned char *buffers[PASSES];
static long differences, steps_compared;

static long number(void)
{
    long read;
    if (scanf("%ld", &read) != 1) {
        fprintf(stderr, "peer_recipes: the input ends too early\n");
        exit(2);
    }
    return read;
}

static int at_most(long most)
{
    long read = number();
    if (read > most) {
        fprintf(stderr, "peer_recipes: %ld is more than %ld\n", read, most);
        exit(2);
    }
    return (int)read;
}

static void read_step(struct step *s)
{
    s->kind = (int)number();
    s->source = (int)number();
    s->name = (int)number();
    s->a = (int)number();
    s->b = s->kind == INDEXED || s->kind == SUBARRAY ? at_most(MOST_ITEMS) : (int)number();
    s->c = (int)number();
    if (s->kind == INDEXED || s->kind == SUBARRAY)
        for (int i = 0; i < s->b; i++)
            for (int j = 0; j < 3; j++)
                s->items[i][j] = (int)number();
    s->lower = number();
    s->extent = number();
    s->entries = at_most(MOST_ENTRIES);
    s->width = (int)number();
    for (int i = 0; i < s->entries; i++)
        s->places[i] = at_most(LENGTH - s->width);
}

static MPI_Datatype basic(int width)
{
    return width == 1 ? MPI_UINT8_T : width == 2 ? MPI_UINT16_T : width == 4 ? MPI_UINT32_T : MPI_UINT64_T;
}

static MPI_Datatype made(const struct step *s, MPI_Datatype of)
{
    static int column[3][MOST_ITEMS];
    MPI_Datatype type = MPI_DATATYPE_NULL;
    if (s->kind == INDEXED || s->kind == SUBARRAY)
        for (int i = 0; i < s->b; i++)
            for (int j = 0; j < 3; j++)
                column[j][i] = s->items[i][j];
    if (s->kind == CONTIGUOUS)
        MPI_Type_contiguous(s->a, of, &type);
    else if (s->kind == VECTOR)
        MPI_Type_vector(s->a, s->b, s->c, of, &type);
    else if (s->kind == INDEXED)
        MPI_Type_indexed(s->b, column[0], column[1], of, &type);
    else if (s->kind == SUBARRAY)
        MPI_Type_create_subarray(s->b, column[0], column[1], column[2], MPI_ORDER_C, of, &type);
    else
        MPI_Type_create_resized(of, 0, s->a, &type);
    MPI_Type_commit(&type);
    return type;
}

static void differs(int recipe, int step, const char *what, long ours, long theirs)
{
    printf("recipe %d step %d: %s %ld here, %ld there\n", recipe, step, what, ours, theirs);
    differences++;
}

static void compare_data(int recipe, int number_of, const struct step *s, MPI_Datatype type)
{
    static unsigned char packed[MOST_ENTRIES * 8 + 4096];
    for (int pass = 0; pass < PASSES; pass++) {
        int position = 0;
        memset(packed, 0, sizeof packed);
        MPI_Pack(buffers[pass], 1, type, packed, sizeof packed, &position, MPI_COMM_SELF);
        if (position != s->entries * s->width) {
            differs(recipe, number_of, "packed bytes", s->entries * s->width, position);
            return;
        }
        for (int i = 0; i < position; i++) {
            unsigned char ours = buffers[pass][s->places[i / s->width] + i % s->width];
            if (packed[i] != ours) {
                printf("recipe %d step %d: packed byte %d, byte %d of its place: %d here, %d there\n", recipe, number_of, i, pass, ours,
                       packed[i]);
                differences++;
                return;
            }
        }
    }
}

static void compare_step(int recipe, int number_of, const struct step *s, MPI_Datatype type)
{
    MPI_Aint lower, extent;
    int size;
    MPI_Type_get_extent(type, &lower, &extent);
    MPI_Type_size(type, &size);
    if (lower != s->lower)
        differs(recipe, number_of, "lower bound", s->lower, (long)lower);
    if (extent != s->extent)
        differs(recipe, number_of, "extent", s->extent, (long)extent);
    if (size != s->entries * s->width)
        differs(recipe, number_of, "size", s->entries * s->width, size);
    compare_data(recipe, number_of, s, type);
    steps_compared++;
}

static void compare_recipe(int recipe)
{
    static struct step s;
    MPI_Datatype types[MOST_STEPS];
    int steps = at_most(MOST_STEPS);
    for (int i = 0; i < steps; i++) {
        read_step(&s);
        types[i] = made(&s, s.source == 1 ? basic(s.name) : types[s.name]);
        compare_step(recipe, i, &s, types[i]);
    }
    for (int i = 0; i < steps; i++)
        MPI_Type_free(&types[i]);
}

int main(int argc, char **argv)
{
    char version[MPI_MAX_LIBRARY_VERSION_STRING];
    int length;
    MPI_Init(&argc, &argv);
    MPI_Get_library_version(version, &length);
    if (argc > 1 && strcmp(argv[1], "version") == 0) {
        printf("%s\n", version);
        MPI_Finalize();
        return 0;
    }
    for (int pass = 0; pass < PASSES; pass++) {
        buffers[pass] = malloc(LENGTH);
        for (int i = 0; i < LENGTH; i++)
            buffers[pass][i] = (unsigned char)(i >> 8 * pass);
    }
    int recipes = (int)number();
    for (int i = 0; i < recipes; i++)
        compare_recipe(i);
    printf("recipes %d steps %ld differences %ld\n", recipes, steps_compared, differences);
    MPI_Finalize();
    return differences ? 1 : 0;
}
