/* Prints the version of the header that it was compiled with, by its three numbers. Where the string says another it fails. */
#include <nyuzolamba.h>
#include <stdio.h>
#include <string.h>

#if NYUZOLAMBA_VERSION_MAJOR < 1
#error "The preprocessor has to know the numbers too, and versions begin with 1."
#endif

int main(void)
{
    char numbers[64];
    snprintf(numbers, sizeof numbers, "%d.%d.%d", NYUZOLAMBA_VERSION_MAJOR, NYUZOLAMBA_VERSION_MINOR, NYUZOLAMBA_VERSION_PATCH);
    if (strcmp(numbers, NYUZOLAMBA_VERSION) != 0) {
        printf("the header's numbers say %s and its string %s\n", numbers, NYUZOLAMBA_VERSION);
        return 1;
    }
    printf("%s\n", numbers);
    return 0;
}
