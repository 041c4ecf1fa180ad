/* What the programs of forward substitution share: reading its files, and its plan. The loop is that of
   examples/forward_divided; the files are Matrix Market files of whole numbers (coordinate general, array
   general). A file that doesn't fit ends the program with status 1. */
#ifndef FORWARD_H
#define FORWARD_H
#include "schedule.h"

/* compressed rows, columns ascending; diag[i] is the first place of row i whose column is at least i */
typedef struct { u32 n; u32 *ptr, *col, *diag; int64_t *val; } rows;

/* says what is wrong with a file, and ends the program */
void refuse(const char *name, const char *why);

/* a square matrix with an entry on each place of the diagonal, entries at one place added */
rows read_matrix(const char *name);

int64_t *read_vector(const char *name, u32 n);

/* the rows that depend on each other in the loop, planned for the workers */
schedule planned(const rows *a, u32 workers);

/* cut off toward zero, and 0 for a quotient by 0 */
int64_t quotient(int64_t a, int64_t b);

#endif
