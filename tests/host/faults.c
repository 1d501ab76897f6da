#include "faults.h"

#define FAULT_NAME(name, text) #name,
#define FAULT_TEXT(name, text) text,
static const char *const names[] = {"NONE", FAULTS(FAULT_NAME)};
static const char *const texts[] = {"none", FAULTS(FAULT_TEXT)};

int planted_fault(void)
{
    return FAULTY;
}

const char *fault_name(int fault)
{
    return names[fault];
}

const char *fault_text(int fault)
{
    return texts[fault];
}
