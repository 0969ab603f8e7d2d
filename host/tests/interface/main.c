/* All families of calls, with buffers lent in three ways. */
#include "interface.h"

static void under_a_profile(void)
{
    test_reading();
    test_editing();
    test_forms();
    test_links();
    test_tables();
    test_sound_found();
    test_scaling();
    test_descriptions();
}

int main(void)
{
    for (lending = FROM_MALLOC; lending < LENDINGS; lending++) {
        for (profile = BLORB_PLAIN; profile <= BLORB_ADRIFT; profile++)
            under_a_profile();
        test_blank();
        test_profiles();
        test_groups();
        test_sounds();
        test_constants();
    }
    printf("interface: %lu checks\ninterface: ok\n", checks);
    return 0;
}
