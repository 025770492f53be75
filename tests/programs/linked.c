/* Shows that the header is C11 and C++17, and that a program links with the library; with OTHER, also with a second copy of it whose
 * calls begin with `other_`. Ends with the number of the first test that fails, or with 0. */
#include <spki.h>
#include <string.h>

#ifdef OTHER
#ifdef __cplusplus
extern "C"
#endif
struct spki_answered other_spki_answer(enum spki_command command, const void *text, size_t text_length, void *buffer, size_t buffer_length,
                                       size_t *needed);
#endif

int main(void)
{
    static const char version[] = SPKI_VERSION;
    char buffer[64];
    size_t needed = 7;
    if (spki_answer(SPKI_CANONICAL, "ab", 2, buffer, sizeof buffer, &needed).status != SPKI_DONE || needed != 4 || memcmp(buffer, "2:ab", 4))
        return 1;
    if (spki_answer(SPKI_CHECK, "ab", 2, buffer, sizeof buffer, NULL).status != SPKI_REFUSED)
        return 2;
    if (spki_answer(SPKI_CHECK, NULL, 0, NULL, 0, &needed).status != SPKI_TOO_SMALL || needed != strlen("refused form Short\n"))
        return 3;
    if (spki_check_accepted(NULL, 1, NULL, 0, NULL, 0, &needed).status != SPKI_MISUSED || needed)
        return 4;
    if (version[0] != '0' + SPKI_VERSION_MAJOR || version[2] != '0' + SPKI_VERSION_MINOR || version[4] != '0' + SPKI_VERSION_PATCH)
        return 5;
#ifdef OTHER
    if (other_spki_answer(SPKI_ADVANCED, "2:ab", 4, buffer, sizeof buffer, &needed).status != SPKI_DONE || needed != 3 || memcmp(buffer, "ab\n", 3))
        return 6;
#endif
    return 0;
}
