/* What the program can do; each gives its status: 0, or 1 where something is not as it must be. */
#ifndef BENCHMARKS_H
#define BENCHMARKS_H

/* Prints the tables of instruction counts. */
int print_counts(void);

/* Compares paths and replies of pairs of locked readers, of ours or of the reader in plain C, on whole runs or in pieces. */
int compare_traces(int of_plain, int pieces);

#endif
