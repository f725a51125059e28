/* Why a reader is refused, in words for who wrote it. */
#ifndef HOST_REASON_H
#define HOST_REASON_H

#include "refusal.h"

/* Of a reader that check refuses: what the form wants, and what it meets there where that can be told. */
reason_of reason_of_check;

/* Of a reader that is stuck on a document or goes on for too long: what the form wants, and which document that is. */
reason_of reason_of_run;

#endif
