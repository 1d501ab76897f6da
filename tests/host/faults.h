/* Faults planted in the model, one at a time, to show that the runner finds them: FAULT(name) is true only in a model compiled with
 * -DFAULTY=n, where n is the place of that name in the list. The last ones stand around the library's call instead, as if the library misused
 * what it was lent; those called drift change what its CPUID answered beside another call, and those called law what it made of a counter call again.
 * tests/host/faults.sh builds and runs them all. */
#ifndef FAULTS_H
#define FAULTS_H

#ifndef FAULTY
#define FAULTY 0
#endif

#define FAULTS(X)                                                                                      \
    /* AES and handles */                                                                              \
    X(NO_MIDDLE_SUBWORD, "AES-256 key expansion without the SubWord in the middle of a key")           \
    X(DECRYPTION_ENCRYPTS, "decryption encrypts")                                                      \
    X(COUNTER_BIG_ENDIAN, "the keystream counter is big-endian")                                       \
    X(COUNTER_CARRIES, "the keystream counter carries into byte 4")                                    \
    X(COUNTER_TOP_BIT, "the first counter block keeps the tag's top bit")                              \
    X(POLYVAL_TOP_BIT, "the top bit of POLYVAL is not cleared")                                        \
    X(LENGTHS_EXCHANGED, "the length block has the key's length first")                                \
    X(LENGTHS_IN_BYTES, "the length block counts bytes")                                               \
    X(FIXED_HANDLE, "every key has the same tag and ciphertext")                                       \
    X(KEY_AS_CIPHERTEXT, "the key itself is the ciphertext")                                           \
    X(TAG_OF_15_BYTES, "the last byte of the tag is not compared")                                     \
    X(TAG_TOP_BIT_IGNORED, "the top bit of the tag is not compared")                                   \
    /* strings and addresses */                                                                        \
    X(REX_R_IGNORED, "REX.R does not extend the block register")                                       \
    X(REX_R_IN_WIDE, "REX.R counts in the wide forms")                                                 \
    X(REX_X_INDEX_4, "index 4 means none with REX.X too")                                              \
    X(REX_B_WITHOUT_BASE, "SIB base 5 with mod 0 and REX.B is R13")                                    \
    X(REX_B_RIP, "r/m 5 with mod 0 and REX.B is R13")                                                  \
    X(TWO_REX, "a second REX byte is taken")                                                           \
    X(OPERAND_TEST_LATE, "a form that no instruction has is found only behind the displacement")       \
    X(DISP8_UNSIGNED, "displacements of one byte are not sign-extended")                               \
    X(DISP32_UNSIGNED, "displacements of four bytes are not sign-extended")                            \
    X(RIP_FROM_START, "RIP-relative counts from the start of the instruction")                         \
    X(RBP_NOT_STACK, "RBP as base is not in the stack segment")                                        \
    X(R12_R13_STACK, "R12 and R13 as base are in the stack segment")                                   \
    X(FIRST_BYTE_CANONICAL, "only the first byte of a handle is tested for being canonical")           \
    X(CANONICAL_48, "48 bytes of a 64-byte handle are tested for being canonical")                     \
    X(MEMORY_48, "48 bytes of a 64-byte handle are tested against memory")                             \
    X(ADDRESS_SIZE_IGNORED, "67 does not truncate the address")                                        \
    X(ADDRESS_16, "67 truncates the address to 16 bits")                                               \
    X(ADDRESS_31, "67 truncates the address to 31 bits")                                               \
    X(ADDRESS_33, "67 truncates the address to 33 bits")                                               \
    X(ADDRESS_32_ALWAYS, "the address is truncated to 32 bits without 67 too")                         \
    X(ADDRESS_SIZE_OF_BASE, "67 truncates the base and not the sum")                                   \
    X(ADDRESS_SIZE_NOT_RIP, "67 does not truncate RIP-relative addresses")                             \
    X(ADDRESS_SIZE_NOT_RELATIVE, "67 does not count in the length for RIP-relative")                   \
    X(ADDRESS_SIZE_NOT_IN_RIP, "67 does not count in the length that RIP advances by")                 \
    X(ADDRESS_SIZE_TRUNCATES_RIP, "67 truncates RIP")                                                  \
    X(ADDRESS_SIZE_DISP16, "with 67 long displacements have two bytes")                                \
    X(REX_W_ADDRESS_SIZE, "REX.W gives the address its 64 bits back")                                  \
    X(CANONICAL_BEFORE_SIZE, "canonical is asked of the address before 67 truncates it")               \
    X(TWO_ADDRESS_SIZES, "a second 67 is taken")                                                       \
    X(ADDRESS_SIZE_BEFORE_LOCK, "67 before F0 is taken")                                               \
    X(ADDRESS_SIZE_BEHIND_F3, "67 behind F3 is taken")                                                 \
    X(ADDRESS_SIZE_BEHIND_REX, "67 behind REX is taken")                                               \
    X(ADDRESS_SIZE_OF_REGISTERS, "67 before LOADIWKEY and ENCODEKEY is refused")                       \
    X(LOCK_ADDRESS_SIZE, "67 behind F0 is refused")                                                    \
    X(ADDRESS_SIZE_AT_END, "a string that ends with 67 has a bad byte")                                \
    X(OPERAND_SIZE_TAKEN, "66 is taken for 67")                                                        \
    X(IDLE_STRING_ENDS, "an empty string ends too soon")                                               \
    X(LOCK_IDLE, "F0 alone is an idle step")                                                           \
    X(ADDRESS_SIZE_IDLE, "67 alone is an idle step")                                                   \
    X(REP_IDLE, "F3 alone is an idle step")                                                            \
    /* refusals */                                                                                     \
    X(PAST_COUNT_UNREAD, "entries past the count may hold anything")                                   \
    X(PAST_COUNT_STATUS, "the copy status of an entry past the count may be 1")                        \
    X(ABSENT_IWKEY_UNREAD, "an absent IWKey may hold anything")                                        \
    X(PRESENCE_ABOVE_1, "a presence byte above 1 is taken")                                            \
    X(COUNT_17, "a count of 17 is taken at power-on")                                                  \
    X(WAKE_CODE_3, "wake code 3 is taken")                                                             \
    X(CONTROL_BITS_FREE, "bits 4 to 7 of the control byte may be set")                                 \
    X(LAST_ZERO_FREE, "the last byte of the CPU record may be set")                                    \
    X(MEMORY_LIMIT, "memory of 1,048,577 bytes is taken")                                              \
    X(RANDOM_LENGTH, "random data of more than 48 bytes is taken")                                     \
    X(CPU_BEFORE_PROCESSOR, "the CPU record is tested before the processor number")                    \
    X(STRING_BEFORE_RANDOM, "the string is read before the random data's length is tested")            \
    X(REGISTER_BEFORE_CPL, "a register's address is tested before the CPL argument")                   \
    X(UD_ALWAYS, "#UD for everything")                                                                 \
    X(NM_BEFORE_UD, "#NM is tested before #UD")                                                        \
    X(FIRMWARE_FOR_LOAD, "LOADIWKEY needs the firmware bit")                                           \
    X(PF_BEFORE_GP, "#PF is tested before #GP(0)")                                                     \
    X(CPL0_ENCODE_REFUSED, "encoding for CPL 0 only is refused at CPL 3")                              \
    X(SOURCE_OF_64_BITS, "all 64 bits of the encode source are tested")                                \
    X(RAX_OF_64_BITS, "all 64 bits of RAX are tested by LOADIWKEY")                                    \
    X(LOAD_AT_CPL_1, "LOADIWKEY is refused at CPL 3 only")                                             \
    X(REGISTER_WITHOUT_KL, "backup registers need no KL feature")                                      \
    X(REGISTER_BIT_63, "bits 63:32 of a written value are not tested")                                 \
    X(IDLE_ANY_MACHINE, "idle step: the machine is not tested")                                        \
    X(IDLE_ANY_PROCESSOR, "idle step: the processor number is not tested")                             \
    X(IDLE_ANY_CPU_LENGTH, "idle step: the CPU record's length is not tested")                         \
    X(IDLE_ANY_CPU, "idle step: the fields of the CPU record are not tested")                          \
    X(IDLE_ANY_MEMORY, "idle step: the length of memory is not tested")                                \
    X(IDLE_ANY_RANDOM, "idle step: the random data's length is not tested")                            \
    X(IDLE_NEEDS_KL, "idle step: #UD without the KL feature")                                          \
    X(IDLE_NEEDS_FIRMWARE, "idle step: #UD without the firmware bit")                                  \
    X(IDLE_NEEDS_CR4_KL, "idle step: #UD without CR4.KL")                                              \
    X(IDLE_NEEDS_OSFXSR, "idle step: #UD without CR4.OSFXSR")                                          \
    X(IDLE_EM, "idle step: #UD under CR0.EM")                                                          \
    X(IDLE_TS, "idle step: #NM under CR0.TS")                                                          \
    X(IDLE_AT_CPL_0, "idle step: #GP(0) at CPL above 0")                                               \
    X(CTR_SIZE_BEFORE_CPU, "counter call: 18 before 4")                                                \
    X(CTR_SIZE_BEFORE_FIELDS, "counter call: 18 before 5")                                             \
    X(CTR_SIZE_BEHIND_UD, "counter call: 18 behind 10")                                                \
    X(CTR_SIZE_BEHIND_NM, "counter call: 18 behind 11")                                                \
    X(CTR_65536_REFUSED, "counter call: a buffer of 65,536 bytes is refused")                          \
    X(CTR_65537_TAKEN, "counter call: a buffer of 65,537 bytes is taken")                              \
    X(CTR_WHOLE_BLOCKS, "counter call: a buffer that ends inside a block is refused")                  \
    X(CTR_EMPTY_REFUSED, "counter call: an empty buffer is refused")                                   \
    X(CTR_HANDLE_BETWEEN, "counter call: a handle between 48 and 64 bytes is taken")                   \
    X(CTR_HANDLE_LONGER, "counter call: a handle of more than 64 bytes is taken")                      \
    X(CTR_COUNTER_LONGER, "counter call: a counter block of more than 16 bytes is taken")              \
    X(CTR_WIDE_ASKED, "counter call: #UD without the wide bit")                                        \
    X(CTR_FIRMWARE_OFF, "counter call: the firmware bit is not needed")                                \
    X(CTR_NM_BEFORE_UD, "counter call: #NM is tested before #UD")                                      \
    X(CTR_TS_IGNORED, "counter call: CR0.TS is not looked at")                                         \
    /* instructions */                                                                                 \
    X(RIP_ONLY, "instructions advance RIP and do no more")                                             \
    X(RIP_STAYS_ON_FAILURE, "RIP stays where a handle does not open")                                  \
    X(BLOCKS_ZEROED, "a use that fails zeroes its blocks")                                             \
    X(NEVER_OPENED, "a use sets ZF without opening the handle")                                        \
    X(ALWAYS_OPENED, "a use clears ZF where the handle does not open")                                 \
    X(SEVENTH_FLAG, "DF is cleared with the six flags")                                                \
    X(OF_KEPT, "OF is kept")                                                                           \
    X(WIDE_SEVEN, "a wide form leaves XMM7")                                                           \
    X(RESERVED_AAD, "reserved bits of the AAD are not looked at")                                      \
    X(KEY_TYPE, "the key type of the AAD is not looked at")                                            \
    X(DIRECTIONS_EXCHANGED, "no encryption and no decryption are exchanged")                           \
    X(CPL0_ONLY_AT_3, "CPL 0 only is looked at only at CPL 3")                                         \
    X(WRONG_PROCESSOR, "uses take the IWKey of processor 0")                                           \
    X(XMM3_CLEARED, "ENCODEKEY128 clears XMM3")                                                        \
    X(XMM6_KEPT, "ENCODEKEY leaves XMM6")                                                              \
    X(DESTINATION_OF_32_BITS, "the upper half of the encode destination is kept")                      \
    X(NO_BACKUP_FROM_FEATURES, "the encode destination has NoBackup from the features")                \
    X(SOURCES_EXCHANGED, "SRC1 and SRC2 of LOADIWKEY are exchanged")                                   \
    X(RANDOM_ORDER, "LOADIWKEY takes the first 16 random bytes for the integrity key")                 \
    X(RANDOM_AT_SOURCE_0, "LOADIWKEY takes random bytes at key source 0")                              \
    X(NOT_READY_LOADS, "LOADIWKEY loads although the random source is not ready")                      \
    X(LOAD_CLEARS_STATUS, "LOADIWKEY clears the copy status")                                          \
    X(IDLE_MOVES_RIP, "an idle step moves RIP by 1")                                                   \
    X(IDLE_CLEARS_FLAGS, "an idle step clears the six flags")                                          \
    X(IDLE_SETS_ZF, "an idle step sets ZF")                                                            \
    X(IDLE_CLEARS_STATUS, "an idle step clears the copy status")                                       \
    /* counter calls */                                                                                \
    X(CTR_LITTLE_ENDIAN, "counter call: the counter is little-endian")                                 \
    X(CTR_FROM_1, "counter call: the first block takes the counter block plus 1")                      \
    X(CTR_CARRY_12, "counter call: the last four bytes alone count")                                   \
    X(CTR_CARRY_8, "counter call: the last eight bytes alone count")                                   \
    X(CTR_CARRY_1, "counter call: the first byte does not count")                                      \
    X(CTR_STOPS_AT_END, "counter call: the counter stays at 2^128 - 1")                                \
    X(CTR_PAIRS_ALIKE, "counter call: two blocks take one counter")                                    \
    X(CTR_LAST_BYTES, "counter call: a short end takes the last bytes of its keystream")               \
    X(CTR_NO_SHORT_END, "counter call: a short end is left as it is")                                  \
    X(CTR_SEVEN_OF_EIGHT, "counter call: the last of each eight blocks is left as it is")              \
    X(CTR_LAST_OF_LONGEST, "counter call: the last block of 65,536 bytes is left as it is")            \
    X(CTR_DECRYPTS, "counter call: the counters are decrypted")                                        \
    X(CTR_NOT_ENCRYPTED, "counter call: the counters themselves are XORed")                            \
    X(CTR_STREAM_ALONE, "counter call: the keystream replaces the data")                               \
    X(CTR_TYPE_PICKS_SIZE, "counter call: the key type in the AAD picks the key's size")               \
    X(CTR_JUDGED_DECRYPTING, "counter call: no decryption forbids, no encryption does not")            \
    X(CTR_ANY_CPL, "counter call: CPL 0 only is not looked at")                                        \
    X(CTR_PROCESSOR_0, "counter call: the IWKey of processor 0 is taken")                              \
    X(CTR_EMPTY_UNOPENED, "counter call: the handle of an empty buffer is not opened")                 \
    X(CTR_NO_FLAGS_WHEN_EMPTY, "counter call: an empty buffer leaves the flags")                       \
    X(CTR_ALWAYS_ZF_0, "counter call: ZF 0 where the handle does not open")                            \
    X(CTR_ZEROES, "counter call: data whose handle does not open is zeroed")                           \
    X(CTR_FLAGS_KEPT, "counter call: the five other flags are kept")                                   \
    X(CTR_MOVES_RIP, "counter call: RIP moves")                                                        \
    X(CTR_XMM0, "counter call: XMM0 is written")                                                       \
    X(CTR_CLEARS_STATUS, "counter call: the copy status is cleared")                                   \
    X(LAW_WIDE, "counter call: the wide bit changes the eighth block")                                 \
    X(LAW_SINGLY, "counter call: the ninth block is not that of the single form")                      \
    X(LAW_TWICE, "counter call: twice does not give the data back")                                    \
    X(LAW_IN_PARTS, "counter call: a second part takes another counter")                               \
    /* backup, sleep, reset */                                                                         \
    X(COPY_OUT_NO_BACKUP, "copies out although NoBackup is set")                                       \
    X(COPY_OUT_PENDING, "copies out although a backup is pending")                                     \
    X(COPY_OUT_TAKEN, "copies out although a backup is pending, once it is consumed")                  \
    X(STATUS_ON_FAILURE, "a copy that fails sets the copy status")                                     \
    X(COPY_ONCE, "copies out only raise the status once there is a backup")                            \
    X(COPY_IN_ONCE, "copies in only raise the status where the processor has a key")                   \
    X(COPY_IN_PENDING, "copies in fail while a backup is pending")                                     \
    X(COPY_OUT_KEEPS_VALID, "a copy out keeps valid")                                                  \
    X(COPY_OUT_KEEPS_CONSUMED, "a copy out keeps consumed")                                            \
    X(FAILED_COPY_CLEARS_CONSUMED, "a copy out that fails while a backup is pending clears consumed")  \
    X(WRITE_0_CLEARS, "writing 0 clears the copy status")                                              \
    X(ERROR_BIT_1, "error is read in bit 1")                                                           \
    X(SETTLE_NOT_PENDING, "settle acts although nothing is pending")                                   \
    X(SETTLE_NOT_TAKEN, "settle does nothing once the backup is consumed")                             \
    X(SETTLE_NEEDS_TAKEN, "settle does nothing before the backup is consumed")                         \
    X(SETTLE_CLEARS_TAKEN, "settle clears consumed where it was set")                                  \
    X(BAD_SETTLE_KEEPS, "a bad settle keeps the store")                                                \
    X(TAKEN_NOTHING, "taken does nothing")                                                             \
    X(TAKEN_NOT_PENDING, "taken sets consumed although nothing is pending")                            \
    X(TAKEN_NEEDS_BACKUP, "taken does nothing where pending is 1 without a backup")                    \
    X(TAKEN_NEEDS_FEATURE, "taken does nothing without the backup feature")                            \
    X(TAKEN_VALID, "taken sets valid and not consumed")                                                \
    X(TAKEN_TOGGLES, "taken twice clears consumed")                                                    \
    X(TAKEN_CLEARS_PENDING, "taken clears pending")                                                    \
    X(TAKEN_CLEARS_VALID, "taken clears valid")                                                        \
    X(TAKEN_CLEARS_ERROR, "taken clears error")                                                        \
    X(TAKEN_CLEARS_STATUS, "taken clears the copy statuses")                                           \
    X(TAKEN_STORES, "taken moves the backup to the store")                                             \
    X(TAKEN_IDLE_REFUSED, "taken is refused where nothing is pending")                                 \
    X(TAKEN_UNCHECKED, "taken takes a machine that refusal 1 names")                                   \
    X(TAKEN_CONSUMED_2, "taken writes over consumed without a test of it")                             \
    X(TAKEN_UNREAD, "consumed is not read while a backup is pending")                                  \
    X(SLEEP_KEEPS_CONSUMED, "sleep keeps consumed")                                                    \
    X(SLEEP_KEEPS_TAKEN, "sleep keeps consumed of a backup that was pending")                          \
    X(SLEEP_KEEPS_STATUS, "sleep keeps the copy statuses")                                             \
    X(WAKE_NEW_IS_OLD, "wake code 1 gives the old store")                                              \
    X(WAKE_OLD_IS_NEW, "wake code 0 gives the pending backup")                                         \
    X(JUNK_KEEPS_VALID, "junk keeps valid")                                                            \
    X(JUNK_ONLY_PENDING, "junk is no junk where nothing is pending")                                   \
    X(WAKE_KEEPS_BACKUP, "sleep without pending keeps the backup after a bad settle")                  \
    X(RESET_KEEPS_STORE, "reset keeps backup and store")                                               \
    X(RESET_KEEPS_CONSUMED, "reset keeps consumed")                                                    \
    /* CPUID */                                                                                        \
    X(CPUID_BIT_22, "CPUID: KL is bit 22 of leaf 7")                                                   \
    X(CPUID_SUBLEAF_OF_7, "CPUID: every subleaf of leaf 7 is answered")                                \
    X(CPUID_SUBLEAF_OF_19, "CPUID: leaf 0x19 is answered for subleaf 0 alone")                         \
    X(CPUID_LEAF_BYTE, "CPUID: the low byte of the leaf decides")                                      \
    X(CPUID_LEAF_0, "CPUID: leaf 0 has the highest leaf")                                              \
    X(CPUID_WITHOUT_KL, "CPUID: leaf 0x19 is answered without the KL feature")                         \
    X(CPUID_AESKLE_CR4, "CPUID: AESKLE without CR4.KL")                                                \
    X(CPUID_AESKLE_FIRMWARE, "CPUID: AESKLE without the firmware bit")                                 \
    X(CPUID_AESKLE_EM, "CPUID: AESKLE is 0 under CR0.EM")                                              \
    X(CPUID_AESKLE_OSFXSR, "CPUID: AESKLE is 0 without CR4.OSFXSR")                                    \
    X(CPUID_WIDE_BACKUP, "CPUID: wide forms and backup registers are exchanged")                       \
    X(CPUID_BACKUP_FIRMWARE, "CPUID: the backup registers show only with the firmware bit")            \
    X(CPUID_NO_BACKUP_RANDOM, "CPUID: NoBackup and random source are exchanged")                       \
    X(CPUID_EAX_3, "CPUID: no decryption is not among the restrictions")                               \
    X(CPUID_ZEROS_KEPT, "CPUID: a leaf without bits leaves the four numbers")                          \
    X(CPUID_IN_RECORD, "CPUID: EAX goes to the CPU record too")                                        \
    X(CPUID_RIP, "CPUID: RIP advances")                                                                \
    X(CPUID_CPU_BEFORE_MACHINE, "CPUID: the CPU record is tested before the machine")                  \
    X(CPUID_5_BEFORE_4, "CPUID: the CPL is tested before the CPU record's length")                     \
    X(CPUID_CPL_4, "CPUID: CPL 4 is taken")                                                            \
    X(CPUID_CPL_ALONE, "CPUID: zero fields of the CPU record are not tested")                          \
    X(CPUID_AT_CPL_0, "CPUID: CPL above 0 is refused")                                                 \
    X(DRIFT_KL, "drift: CPUID always shows KL")                                                        \
    X(DRIFT_AESKLE, "drift: CPUID always shows AESKLE")                                                \
    X(DRIFT_WIDE, "drift: CPUID always shows the wide forms")                                          \
    X(DRIFT_BACKUP, "drift: CPUID always shows the backup registers")                                  \
    X(DRIFT_NO_BACKUP, "drift: CPUID always shows NoBackup")                                           \
    X(DRIFT_RANDOM, "drift: CPUID always shows the random source")                                     \
    X(DRIFT_RESTRICTIONS, "drift: CPUID never shows no decryption")                                    \
    /* the history machine */                                                                          \
    X(HISTORY_NOT_READY, "history: LOADIWKEY without random data makes a name")                        \
    X(HISTORY_COPY_NO_BACKUP, "history: a name with NoBackup gets into the backup")                    \
    X(HISTORY_BAD_SETTLE, "history: a bad settle keeps the store's name")                              \
    X(HISTORY_SLEEP_KEEPS_NAMES, "history: sleep keeps the processors' names")                         \
    X(HISTORY_PRIVILEGE, "history: CPL 0 only allows every CPL")                                       \
    X(HISTORY_SIZE, "history: a 128 form may use a 64-byte handle")                                    \
    X(HISTORY_CPUID, "history: CPUID is a call of the list")                                           \
    X(HISTORY_TAKEN, "history: taken is no call of the list")                                          \
    X(HISTORY_TAKEN_STORES, "history: taken moves the backup's name to the store")                     \
    X(HISTORY_TAKEN_SETTLES, "history: taken ends pending")                                            \
    X(HISTORY_IDLE, "history: an idle step is no call of the list")                                    \
    X(HISTORY_IDLE_LOADS, "history: an idle step makes a name")                                        \
    X(HISTORY_CTR, "history: a counter call is no call of the list")                                   \
    X(HISTORY_CTR_DECRYPTS, "history: a counter call is judged as a decryption")                       \
    X(HISTORY_CTR_KEEPS, "history: a counter call leaves the data")                                    \
    /* keyrings */                                                                                     \
    X(KEYRING_SIZE_0, "keyring: one of no bytes is taken")                                             \
    X(KEYRING_SIZE_UNEVEN, "keyring: bytes behind the last whole record are taken")                    \
    X(KEYRING_820_RECORDS, "keyring: 820 records are taken")                                           \
    X(KEYRING_80_REFUSED, "keyring: one of 80 bytes is refused")                                       \
    X(KEYRING_BIG_ENDIAN, "keyring: indices are read big-endian")                                      \
    X(KEYRING_INDEX_BYTE, "keyring: indices have one byte")                                            \
    X(KEYRING_HEAD_AT_END, "keyring: a head may be the number of records")                             \
    X(KEYRING_HEAD_15, "keyring: the last head is not tested")                                         \
    X(KEYRING_NEXT_AT_END, "keyring: a next index may be the number of records")                       \
    X(KEYRING_UNUSED_NEXT, "keyring: the next index of an unused record is not tested")                \
    X(KEYRING_KIND_2, "keyring: kind 2 is taken")                                                      \
    X(KEYRING_UNUSED_KIND, "keyring: the kind of an unused record is not tested")                      \
    X(KEYRING_ZERO_BYTE, "keyring: the zero byte is not tested")                                       \
    X(KEYRING_UNUSED_ZERO_BYTE, "keyring: the zero byte of an unused record is not tested")            \
    X(KEYRING_RECORD_0_FIELDS, "keyring: record 0 has a kind and a zero byte")                         \
    X(KEYRING_TAIL_FIRST, "keyring: byte 32 of record 0 is not tested")                                \
    X(KEYRING_TAIL_LAST, "keyring: byte 79 of record 0 is not tested")                                 \
    X(KEYRING_CYCLE, "keyring: a chain may come back to one of its records")                           \
    X(KEYRING_JOINED, "keyring: a record may be on two chains")                                        \
    X(KEYRING_UNUSED_REACHES, "keyring: an unused record reaches its next one")                        \
    X(KEYRING_FILL_TESTED, "keyring: bytes behind a handle of 48 have to be zero")                     \
    X(KEYRING_UNUSED_ZERO, "keyring: an unused record has to be zero")                                 \
    X(KEYRING_WRONG_CHAIN, "keyring: a label on the wrong chain is refused")                           \
    X(KEYRING_SAME_LABEL, "keyring: the same label twice is refused")                                  \
    X(KEYRING_LABEL_13, "keyring: a label of 13 bytes is taken")                                       \
    X(KEYRING_LABEL_LATE, "keyring: lookup: a label of another size is not found")                     \
    X(KEYRING_HANDLE_SIZES, "keyring: a handle between 48 and 64 bytes is taken")                      \
    X(KEYRING_HANDLE_LATE, "keyring: a full one is told before the size of the handle")                \
    X(KEYRING_HIGH_BITS, "keyring: the high four bits pick the chain")                                 \
    X(KEYRING_THREE_BITS, "keyring: the low three bits pick the chain")                                \
    X(KEYRING_ALL_CHAINS, "keyring: every chain is searched")                                          \
    X(KEYRING_RECORD_0_SEARCHED, "keyring: index 0 leads to record 0, which has a label too")          \
    X(KEYRING_LABEL_11, "keyring: the last byte of a label is not compared")                           \
    X(KEYRING_LAST_MATCH, "keyring: the last match counts")                                            \
    X(KEYRING_ZERO_LABEL, "keyring: a label of zeros is never found")                                  \
    X(KEYRING_FILL_GIVEN, "keyring: lookup gives the bytes behind a handle of 48")                     \
    X(KEYRING_REPLACE_KEEPS_FILL, "keyring: 48 bytes over 64 leave the last 16")                       \
    X(KEYRING_REPLACE_KEEPS_KIND, "keyring: replacing keeps the kind")                                 \
    X(KEYRING_REPLACE_MOVES, "keyring: replacing moves the second of a chain to the front")            \
    X(KEYRING_FULL_REPLACE, "keyring: a full one replaces nothing")                                    \
    X(KEYRING_KIND_FROM_AAD, "keyring: the kind comes from the type in the AAD")                       \
    X(KEYRING_FREE_FROM_2, "keyring: record 1 is never free")                                          \
    X(KEYRING_FREE_HIGHEST, "keyring: the free record of highest index is taken")                      \
    X(KEYRING_FREE_BY_ZEROS, "keyring: a free record is one of zeros")                                 \
    X(KEYRING_STALE_FILL, "keyring: a new handle of 48 leaves what stood behind it")                   \
    X(KEYRING_NEXT_0, "keyring: a new record has no next one")                                         \
    X(KEYRING_AT_THE_END, "keyring: a new record goes to the end of its chain")                        \
    /* lent buffers */                                                                                 \
    X(MEMORY_WRITTEN, "memory is written")                                                             \
    X(RANDOM_WRITTEN, "random data is written")                                                        \
    X(STRING_WRITTEN, "the string is written")                                                         \
    X(REFUSED_WRITES_MACHINE, "a refused call writes the machine")                                     \
    X(REFUSED_WRITES_CPU, "a refused call writes the CPU record")                                      \
    X(REFUSED_WRITES_VALUE, "a refused call writes the value")                                         \
    X(REFUSED_WRITES_EDX, "a refused CPUID writes EDX")                                                \
    X(CPUID_WRITES_MACHINE, "CPUID writes the machine")                                                \
    X(TAKEN_REFUSED_WRITES, "a refused taken writes consumed")                                         \
    X(CTR_REFUSED_WRITES, "a refused counter call writes the data")                                    \
    X(CTR_COUNTER_WRITTEN, "a counter block is written")                                               \
    X(CTR_HANDLE_WRITTEN, "the handle of a counter call is written")                                   \
    X(KEYRING_REFUSED_WRITES, "a refused call writes the keyring")                                     \
    X(KEYRING_REFUSED_WRITES_KIND, "a refused lookup writes the kind")                                 \
    X(KEYRING_REFUSED_WRITES_HANDLE, "a refused lookup writes the handle")                             \
    X(KEYRING_LOOKUP_WRITES, "a lookup writes the keyring")                                            \
    X(KEYRING_LABEL_WRITTEN, "a label is written")                                                     \
    X(KEYRING_HANDLE_WRITTEN, "a handle that is added is written")                                     \
    X(KEYRING_WRITES_BEHIND, "a byte behind a handle is written")                                      \
    /* seen only under valgrind, and between guards */                                                 \
    X(BEHIND_MACHINE, "a byte behind the machine is read")                                             \
    X(BEHIND_CPU, "a byte behind the CPU record is read")                                              \
    X(BEHIND_MEMORY, "a byte behind memory is read")                                                   \
    X(BEHIND_RANDOM, "a byte behind the random data is read")                                          \
    X(BEHIND_STRING, "a byte behind the string is read")                                               \
    X(BEHIND_CPUID, "a byte behind the CPU record is read by CPUID")                                   \
    X(BEHIND_KEYRING, "a byte behind the keyring is read")                                             \
    X(BEHIND_LABEL, "a byte behind the label is read")                                                 \
    X(BEHIND_ADDED, "a byte behind the handle that is added is read")                                  \
    X(BEHIND_HANDLE, "a byte behind the handle of a counter call is read")                             \
    X(BEHIND_COUNTER, "a byte behind a counter block is read")                                         \
    X(BEHIND_DATA, "a byte behind the data of a counter call is read")                                 \
    X(BEFORE_MACHINE, "a byte before the machine is read")                                             \
    X(BEFORE_CPU, "a byte before the CPU record is read")                                              \
    X(BEFORE_MEMORY, "a byte before memory is read")                                                   \
    X(BEFORE_RANDOM, "a byte before the random data is read")                                          \
    X(BEFORE_STRING, "a byte before the string is read")                                               \
    X(BEFORE_KEYRING, "a byte before the keyring is read")                                             \
    X(BEFORE_LABEL, "a byte before the label is read")                                                 \
    X(BEFORE_ADDED, "a byte before the handle that is added is read")                                  \
    X(BEFORE_HANDLE, "a byte before the handle of a counter call is read")                             \
    X(BEFORE_COUNTER, "a byte before a counter block is read")                                         \
    X(BEFORE_DATA, "a byte before the data of a counter call is read")                                 \
    /* seen only between guards */                                                                     \
    X(BESIDE_MACHINE, "a settle writes a byte before the machine that is in the same page")            \
    X(REWRITES_MACHINE, "a refused call writes the machine as it is")                                  \
    X(REWRITES_MACHINE_READ, "a read writes the machine as it is")                                     \
    X(REWRITES_MACHINE_CTR, "a counter call writes the machine as it is")                              \
    X(REWRITES_CPU, "a refused call writes the CPU record as it is")                                   \
    X(REWRITES_CPU_CPUID, "CPUID writes the CPU record as it is")                                      \
    X(REWRITES_MEMORY, "memory is written as it is")                                                   \
    X(REWRITES_RANDOM, "random data is written as it is")                                              \
    X(REWRITES_STRING, "the string is written as it is")                                               \
    X(REWRITES_HANDLE, "the handle of a counter call is written as it is")                             \
    X(REWRITES_COUNTER, "a counter block is written as it is")                                         \
    X(REWRITES_DATA, "a refused counter call writes the data as it is")                                \
    X(REWRITES_VALUE, "a refused read writes the value as it is")                                      \
    X(REWRITES_EDX, "a refused CPUID writes EDX as it is")                                             \
    X(REWRITES_KEYRING, "a refused call writes the keyring as it is")                                  \
    X(REWRITES_KEYRING_LOOKUP, "a lookup writes the keyring as it is")                                 \
    X(REWRITES_LABEL, "a label is written as it is")                                                   \
    X(REWRITES_ADDED, "a handle that is added is written as it is")                                    \
    X(REWRITES_FOUND, "a refused lookup writes the handle as it is")                                   \
    X(REWRITES_KIND, "a refused lookup writes the kind as it is")

enum fault {
    FAULT_NONE,
#define FAULT_NUMBER(name, text) FAULT_##name,
    FAULTS(FAULT_NUMBER)
#undef FAULT_NUMBER
    FAULT_END
};

#define FAULT(name) (FAULTY == FAULT_##name)

/* which fault this program was built with, 0 for none; what it is */
int planted_fault(void);
const char *fault_name(int fault);
const char *fault_text(int fault);

#endif
