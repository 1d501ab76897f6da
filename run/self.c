#include "self.h"

#include <stddef.h>

#include "system.h"

struct self self_now(void)
{
    static __thread struct self known __attribute__((tls_model("initial-exec")));
    struct self self = known;
    long thread = SYSTEM(SYS_gettid);
    size_t len;
    if (self.thread == thread)
        return self;
    self = (struct self){.process = SYSTEM(SYS_getpid), .thread = thread};
    if (SYSTEM(SYS_get_robust_list, 0, &self.robust, &len) < 0)
        self.robust = NULL;
    return known = self;
}
