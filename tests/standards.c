/* The header file as every standard of C and C++ takes it. tests/run compiles this by each, with every warning an error, and again with DROP_ANSWERS
 * defined: then each of the 9 calls that answer with a refusal has to be warned of. */
#include "../include/taqwelim.h"
#include "../include/taqwelim.h" /* again, as another header file may */

#ifdef DROP_ANSWERS
#define ANSWERED(answer) answer
#else
#define ANSWERED(answer) refusals |= (answer).refusal
#endif

#if TAQWELIM_VERSION_MAJOR + TAQWELIM_VERSION_MINOR + TAQWELIM_VERSION_PATCH == 0
#error "the version's numbers are for the preprocessor too"
#endif

#if defined(__cplusplus) && __cplusplus >= 201103L
static_assert(noexcept(taqwelim_put(nullptr, 0, taqwelim_fresh_sender(), nullptr, 0)), "no call throws");
#endif

const char *version(void)
{
    return "taqwelim " TAQWELIM_VERSION;
}

unsigned every_call(uint8_t *bytes, size_t length)
{
    taqwelim_header header = {TAQWELIM_FIELDS_WITHOUT_MESSAGE, 0, TAQWELIM_KIND_DATA};
    taqwelim_fields fields = TAQWELIM_FIELDS_WITHOUT_MESSAGE;
    taqwelim_sender sender = taqwelim_fresh_sender();
    taqwelim_receiver receiver = taqwelim_fresh_receiver();
    unsigned refusals = 0;
    ANSWERED(taqwelim_put(bytes, length, sender, bytes, length));
    ANSWERED(taqwelim_waiting(bytes, length, sender));
    ANSWERED(taqwelim_next_frame(TAQWELIM_TAPS_0_AND_3, fields, sender, bytes, length, bytes, length));
    ANSWERED(taqwelim_open(TAQWELIM_TAPS_0_AND_3, bytes, length, bytes, length));
    ANSWERED(taqwelim_repair(TAQWELIM_TAPS_0_AND_3, bytes, length, bytes, length));
    ANSWERED(taqwelim_apply(header, bytes, length, receiver, bytes, length, bytes, length));
    ANSWERED(taqwelim_entry(bytes, length, 0));
    ANSWERED(taqwelim_code_header(header, bytes, length));
    ANSWERED(taqwelim_read_header(bytes, length));
    return refusals + (unsigned)taqwelim_packet(bytes, length, 0).length + (unsigned)taqwelim_level(255);
}
