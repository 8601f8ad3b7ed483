/* A target for libFuzzer: the same cases as the driver's, made from the fuzzer's bytes. The first byte chooses the group.
 * The fuzzer sees which lines of the paper's C were reached, and so looks for every condition of documents 01 and 02. */
#include <stdlib.h>

#include "groups.h"

int LLVMFuzzerInitialize(int *count, char ***words);
int LLVMFuzzerTestOneInput(const uint8_t *bytes, size_t length);

int LLVMFuzzerInitialize(int *count, char ***words)
{
    (void)count;
    (void)words;
    on_disagreement = abort;
    compare_start();
    return 0;
}

int LLVMFuzzerTestOneInput(const uint8_t *bytes, size_t length)
{
    struct numbers numbers = numbers_of_bytes(bytes, length);
    run_case(&numbers);
    return 0;
}
