#include "refusal.h"

#include "answer.h"

static const struct choice answers[] = {
    {"done", KEYLOCKER_DONE},
    {"bad_machine", KEYLOCKER_BAD_MACHINE},
    {"bad_code", KEYLOCKER_BAD_CODE},
    {"bad_processor", KEYLOCKER_BAD_PROCESSOR},
    {"bad_cpu_size", KEYLOCKER_BAD_CPU_SIZE},
    {"bad_cpu", KEYLOCKER_BAD_CPU},
    {"bad_size", KEYLOCKER_BAD_SIZE},
    {"bad_memory", KEYLOCKER_BAD_MEMORY},
    {"bad_random", KEYLOCKER_BAD_RANDOM},
    {"bad_byte", KEYLOCKER_BAD_BYTE},
    {"string_ends", KEYLOCKER_STRING_ENDS},
    {"ud", KEYLOCKER_UD},
    {"nm", KEYLOCKER_NM},
    {"gp", KEYLOCKER_GP},
    {"ss", KEYLOCKER_SS},
    {"pf", KEYLOCKER_PF},
    {"bad_keyring", KEYLOCKER_BAD_KEYRING},
    {"no_label", KEYLOCKER_NO_LABEL},
    {"keyring_full", KEYLOCKER_KEYRING_FULL},
};

const char *answer_name(uint32_t answer)
{
    for (size_t i = 0; i < sizeof answers / sizeof *answers; i++)
        if (answers[i].number == answer)
            return answers[i].word;
    return "unknown";
}

uint32_t take_refusal(struct line *line)
{
    static const char prefix[] = "keylocker_", expected[] = "a refusal, a number from 1 to 18 or a name of keylocker.h, such as gp or bad_machine";
    enum { PREFIX = sizeof prefix - 1 };
    if (!at_end(line)) {
        struct word *word = &line->words[line->next];
        if (word->len > PREFIX && word_is((struct word){word->text, PREFIX}, prefix))
            *word = (struct word){word->text + PREFIX, word->len - PREFIX};
    }
    uint32_t number = TAKE_CHOICE(line, answers, KEYLOCKER_BAD_SIZE, expected);
    if (number == KEYLOCKER_DONE)
        bad_line(line, "expected %s; 0 is 'expect done'", expected);
    return number;
}

static const char *general_protection(enum call call)
{
    switch (call) {
    case CALL_LOAD:
        return ": CPL above 0, EAX bits 31:5 set, a key source above 1, or NoBackup or the random source not supported";
    case CALL_ENCODE:
        return ": restriction bits 31:3 set";
    case CALL_USE:
        return ": the address of a handle byte is not canonical";
    case CALL_READ:
        return ": CPL above 0, no backup registers on this machine, or none that is read at this address";
    case CALL_WRITE:
        return ": CPL above 0, no backup registers on this machine, none that is written at this address, or bits 63:1 set";
    default:
        return "";
    }
}

/* Where the call, or what it was lent, lets more be said than the header does. */
void add_refusal(struct simulator *s, enum call call, uint32_t number)
{
    switch (number) {
    case KEYLOCKER_BAD_MACHINE:
        if (s->machine.len != KEYLOCKER_MACHINE_SIZE)
            add_answer(s, "the machine does not have %d bytes", KEYLOCKER_MACHINE_SIZE);
        else
            add_answer(s, call == CALL_POWER_ON ? "the processor count or the features are not possible" : "these bytes are no machine; was it powered on?");
        break;
    case KEYLOCKER_BAD_CODE:
        add_answer(s, "%s code unknown", call == CALL_SETTLE ? "settle" : "wake");
        break;
    case KEYLOCKER_BAD_CPU_SIZE:
        add_answer(s, "the CPU record does not have %d bytes", KEYLOCKER_CPU_SIZE);
        break;
    case KEYLOCKER_BAD_SIZE:
        add_answer(s, "more than %d bytes, a handle neither %d nor %d, or a counter block not %d", KEYLOCKER_BUFFER_LIMIT, KEYLOCKER_HANDLE_128_SIZE,
                   KEYLOCKER_HANDLE_256_SIZE, KEYLOCKER_COUNTER_SIZE);
        break;
    case KEYLOCKER_BAD_MEMORY:
        add_answer(s, "memory above %d bytes", KEYLOCKER_MEMORY_LIMIT);
        break;
    case KEYLOCKER_BAD_RANDOM:
        add_answer(s, "random data neither 0 nor %d bytes", KEYLOCKER_RANDOM_SIZE);
        break;
    case KEYLOCKER_BAD_KEYRING:
        add_answer(s, "these bytes are no keyring%s the label has not %d bytes", call == CALL_KEYRING_ADD ? "," : ", or", KEYLOCKER_LABEL_SIZE);
        if (call == CALL_KEYRING_ADD)
            add_answer(s, ", or the handle neither %d nor %d", KEYLOCKER_HANDLE_128_SIZE, KEYLOCKER_HANDLE_256_SIZE);
        break;
    default:
        add_answer(s, "%s%s", keylocker_answer_text(number), number == KEYLOCKER_GP ? general_protection(call) : "");
    }
}
