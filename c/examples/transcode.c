/* SPDX-License-Identifier: Apache-2.0
 * Reads mu-law codes from the standard input and writes A-law codes to the standard output. No host is needed for that. */
#include <rokdaum.h>
#include <stdio.h>

int main(void)
{
    static uint8_t codes[4096];
    static int16_t samples[4096];
    size_t n;
    while ((n = fread(codes, 1, sizeof codes, stdin)) > 0) {
        rokdaum_code code = rokdaum_g711_decode(ROKDAUM_MU_LAW, codes, samples, n);
        if (code == ROKDAUM_OK)
            code = rokdaum_g711_encode(ROKDAUM_A_LAW, samples, codes, n);
        if (code != ROKDAUM_OK || fwrite(codes, 1, n, stdout) != n) {
            fprintf(stderr, "transcode: %s\n", code != ROKDAUM_OK ? rokdaum_error_text(code) : "can't write");
            return 1;
        }
    }
    return ferror(stdin) || fflush(stdout) ? 1 : 0;
}
