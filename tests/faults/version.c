#include "faults.h"

// With ANOTHER_LAYOUT.
struct finaruvom_versions finaruvom_version(void) {
    return (struct finaruvom_versions){FINARUVOM_VERSION_MAJOR, FINARUVOM_VERSION_MINOR, FINARUVOM_VERSION_PATCH, FINARUVOM_LAYOUT + 1};
}
