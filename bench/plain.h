// The library of include/dnscookie.h in plain C: each function has the arguments and the answers of the one that it is measured
// against. A ledger that is lent has to be one that these functions, or the proved ones, wrote.
#pragma once
#include "dnscookie.h"

__typeof__(dnscookie_siphash24) plain_siphash24;
__typeof__(dnscookie_judge) plain_judge;
__typeof__(dnscookie_make) plain_make;
__typeof__(dnscookie_find) plain_find;
__typeof__(dnscookie_respond) plain_respond;
__typeof__(dnscookie_ledger_fresh) plain_ledger_fresh;
__typeof__(dnscookie_ledger_step) plain_ledger_step;
__typeof__(dnscookie_ledger_secrets) plain_ledger_secrets;
__typeof__(dnscookie_ledger_line) plain_ledger_line;
