/* Which refusal is named where several apply: a file, lists and numbers with faults of every kind. */
#ifndef FAULTS_H
#define FAULTS_H

/*
 * Tests that any of the faults together give the first in turn, in a file of that version. A call is not asked with a
 * fault of what it does not take.
 */
void faults_together(int version);

#endif
