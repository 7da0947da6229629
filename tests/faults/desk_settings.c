#include "faults.h"

struct finaruvom_settings finaruvom_desk_settings(void) {
#ifdef WITH_A_LIST
    return (struct finaruvom_settings){FINARUVOM_DESK_DELAY, 0, true};
#else // SOME_FEE
    return (struct finaruvom_settings){FINARUVOM_DESK_DELAY, 250, false};
#endif
}
