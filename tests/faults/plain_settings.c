#include "faults.h"

struct finaruvom_settings finaruvom_plain_settings(void) {
#ifdef WITH_A_LIST
    return (struct finaruvom_settings){FINARUVOM_PLAIN_DELAY, 0, true};
#else // THE_DESKS
    return finaruvom_desk_settings();
#endif
}
