// Finds the rows that the copy for readers may lack after a kill.
#ifndef GATEWAY_RECOVERY_UNNOTED_ROWS_H
#define GATEWAY_RECOVERY_UNNOTED_ROWS_H

#include "log/database.h"
#include "log/spool.h"
#include "recovery/firm_state.h"

#include <map>
#include <string>

namespace gateway {

// A message of the venue comes into `sent` no later than the note that names it. So the gateway
// before may not have put those there that no note names: they are put there, unless they are. No
// gateway reads them.
void put_unnoted(LogWriter &writer, const std::map<std::string, FirmState> &states,
                 const Spool &spool);

} // namespace gateway

#endif
