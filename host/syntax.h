/* Why a text is no reader, in words for who wrote it. */
#ifndef HOST_SYNTAX_H
#define HOST_SYNTAX_H

#include "refusal.h"

/* Of a reader in which a token stands that no reader has there, or that ends too early: which form it is of, how that form
   goes, and what it wants at the place. Nothing is said of a shape. */
reason_of reason_of_syntax;

#endif
