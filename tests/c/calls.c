// The eight calls through the header: every answer taken apart, the boards worked by hand, every refusal with its number and place, and all lent memory
// afterwards.
// Prints a line for each failure, and last how many comparisons passed and failed.
#include "answers.h"
#include "boards.h"
#include "refusals.h"

int main(void) {
    all_answers();
    all_boards();
    all_refusals();
    printf("%u passed, %u failed\n", passed, failed);
    return failed != 0;
}
