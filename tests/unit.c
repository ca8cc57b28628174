/* Tests the independent implementation on facts that 01, 003 and 001 print, and the random questions. */
#include "unit/check.h"

#include <stdio.h>
#include <stdlib.h>

int main(void)
{
    check_arithmetic();
    check_equation();
    check_tables();
    check_stability();
    check_search();
    check_density();
    check_pairs();
    check_questions();
    check_generator();
    printf("%u passed, %u failed\n", counted.passed, counted.failed);
    return counted.failed == 0 ? EXIT_SUCCESS : EXIT_FAILURE;
}
