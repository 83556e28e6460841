/* What libFuzzer asks for besides the harness: how an input is changed, and how two are made one. */
#include "input.h"

size_t LLVMFuzzerMutate(uint8_t *bytes, size_t length, size_t room);
size_t LLVMFuzzerCustomMutator(uint8_t *bytes, size_t length, size_t room, unsigned seed);
size_t LLVMFuzzerCustomCrossOver(const uint8_t *one, size_t one_length, const uint8_t *two, size_t two_length, uint8_t *bytes, size_t room, unsigned seed);

static struct input first, second;

/* Now and then the bytes themselves, so that nothing is out of reach that the changes don't know of. */
size_t LLVMFuzzerCustomMutator(uint8_t *bytes, size_t length, size_t room, unsigned seed)
{
    size_t changed;
    if (seed % 50 == 0)
        return LLVMFuzzerMutate(bytes, length, room);
    decode(bytes, length, &first);
    change(&first, seed);
    changed = encode(&first, bytes, room);
    return changed != 0 ? changed : LLVMFuzzerMutate(bytes, length, room);
}

size_t LLVMFuzzerCustomCrossOver(const uint8_t *one, size_t one_length, const uint8_t *two, size_t two_length, uint8_t *bytes, size_t room, unsigned seed)
{
    decode(one, one_length, &first);
    decode(two, two_length, &second);
    cross(&first, &second, seed);
    return encode(&first, bytes, room);
}
