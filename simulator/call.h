/* The calls of the library. */
#ifndef CALL_H
#define CALL_H

/* Steps are told apart by what they execute. */
enum call { CALL_NONE, CALL_POWER_ON, CALL_LOAD, CALL_ENCODE, CALL_USE, CALL_IDLE, CALL_UNKNOWN_STEP, CALL_CTR, CALL_CPUID, CALL_READ, CALL_WRITE, CALL_TAKEN,
            CALL_SETTLE, CALL_SLEEP, CALL_RESET, CALL_KEYRING_LOOKUP, CALL_KEYRING_ADD };

#endif
