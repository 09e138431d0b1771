/* Reads a session text from standard input, and prints the line at which it can't be read on, and why. */
#include <stdio.h>

#include "jilqamur.h"

int main(void)
{
    static uint8_t text[1 << 16], line[1 << 16];
    size_t text_len = fread(text, 1, sizeof text, stdin), len, number;
    uint32_t fault;
    uint32_t answer = jilqamur_faulty_line(text, text_len, line, sizeof line, &len, &number, &fault);
    if (answer == JILQAMUR_NOTHING) {
        printf("the text is read to its end\n");
        return 0;
    }
    if (answer != JILQAMUR_OK) {
        fprintf(stderr, "faulty_line: %s\n", jilqamur_error_text(answer));
        return 2;
    }
    printf("line %zu: %s: %.*s\n", number, jilqamur_fault_text(fault), (int)len, (const char *)line);
    return 0;
}
