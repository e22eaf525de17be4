/* The host of MPI_Pack and MPI_Unpack, over a committed datatype of the same etype and filetype. */
#include "measure.h"

#include <mpi.h>
/* What one access packs: so many of the datatype, which begins at byte D of the file. */
struct packing {
    MPI_Datatype type;
    int count;
};

/* The type with lower bound 0 and this extent; the one that it is made of is freed. */
static MPI_Datatype resized(MPI_Datatype of, uint64_t extent)
{
    MPI_Datatype type;
    MPI_Type_create_resized(of, 0, (MPI_Aint)extent, &type);
    MPI_Type_free(&of);
    return type;
}

static MPI_Datatype basic(uint64_t width)
{
    return width == 1 ? MPI_BYTE : width == 2 ? MPI_INT16_T : width == 4 ? MPI_INT32_T : MPI_INT64_T;
}

static MPI_Datatype etype_of(const struct plain_view *v)
{
    int lengths[MAX_ENTRIES];
    MPI_Aint displacements[MAX_ENTRIES];
    MPI_Datatype types[MAX_ENTRIES], joined;
    for (uint64_t e = 0; e < v->n; e++) {
        lengths[e] = 1;
        displacements[e] = (MPI_Aint)v->displacements[e];
        types[e] = basic(v->widths[e]);
    }
    MPI_Type_create_struct((int)v->n, lengths, displacements, types, &joined);
    return resized(joined, v->E);
}

/* The filetype with its first so many instances. */
static MPI_Datatype filetype_of(const struct plain_view *v, uint64_t instances)
{
    int lengths[MAX_INSTANCES];
    MPI_Aint origins[MAX_INSTANCES];
    MPI_Datatype etype = etype_of(v), joined, type;
    for (uint64_t i = 0; i < instances; i++) {
        lengths[i] = 1;
        origins[i] = (MPI_Aint)v->origins[i];
    }
    MPI_Type_create_hindexed((int)instances, lengths, origins, etype, &joined);
    MPI_Type_free(&etype);
    type = resized(joined, v->F);
    MPI_Type_commit(&type);
    return type;
}

static struct packing packing_of(const struct access *a)
{
    const uint64_t instances = a->whole ? a->view->K : 1;
    return (struct packing){filetype_of(a->view, instances), (int)(a->count / instances)};
}

static void mpi_read(const struct access *a, uint64_t rounds)
{
    struct packing p = packing_of(a);
    for (uint64_t r = 0; r < rounds; r++) {
        int position = 0;
        MPI_Pack(a->file + a->view->D, p.count, p.type, a->buf, (int)a->buf_bytes, &position, MPI_COMM_SELF);
    }
    MPI_Type_free(&p.type);
}

static void mpi_write(const struct access *a, uint64_t rounds)
{
    struct packing p = packing_of(a);
    for (uint64_t r = 0; r < rounds; r++) {
        int position = 0;
        MPI_Unpack(a->buf, (int)a->buf_bytes, &position, a->file + a->view->D, p.count, p.type, MPI_COMM_SELF);
    }
    MPI_Type_free(&p.type);
}

int main(int argc, char **argv)
{
    static const struct side sides[] = {{"mpi", mpi_read, mpi_write, 0}};
    MPI_Init(NULL, NULL);
    int status = measure(argc, argv, sides, 1);
    MPI_Finalize();
    return status;
}
