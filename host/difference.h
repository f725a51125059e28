/* What a sample changes in a shape, for a person: the lines of the shape text that differ, under the names that lead there. */
#ifndef HOST_DIFFERENCE_H
#define HOST_DIFFERENCE_H

#include <stdio.h>

#include "text.h"

/*
 * Shows the lines that differ between a shape and what infer makes of it and a sample, both as the library writes them. Each
 * place has a line of words, with the names that lead there, and below it the lines, - before and + behind. Brackets that
 * close forms count for nothing: with a new form behind them they move. Of many places, and of many lines at one, the
 * first are shown.
 */
void difference_show(FILE *to, const struct text *before, const struct text *behind);

#endif
