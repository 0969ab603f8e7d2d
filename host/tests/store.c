/*
 * blorb_store.h: its calls, and its promises where system calls and allocations fail and where the process is ended at any of them. Built and run by
 * host/tests/store. What a power loss leaves is tried by host/tests/command_store.py.
 */
#include <stdio.h>

#include "store_kit.h"
#include "store_process.h"
#include "store_tests.h"

int main(void)
{
    enter_folder();
    share_report();
    calls();
    size_t counted = checks;
    printf("  calls: %zu checks\n", counted);
    others_failing();
    failing_and_ended();
    printf("  failing and ended at each step: %zu checks\n", checks - counted);
    leave_folder();
    puts("store: ok");
    return 0;
}
