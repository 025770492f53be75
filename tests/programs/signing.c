/* Signs by libgcrypt. The words are a file with a private key and one with what libgcrypt signs, each an S-expression. Writes the value of the
 * signature in canonical form. If it cannot, it ends with 1, mostly with a line on standard error. */
#include <gcrypt.h>
#include <stdio.h>

/* The S-expression of a file of at most 65,536 octets. Null if it has none. */
static gcry_sexp_t value_in(const char *path)
{
    static char octets[65536];
    gcry_sexp_t value = NULL;
    FILE *file = fopen(path, "rb");
    size_t length = file ? fread(octets, 1, sizeof octets, file) : 0;
    if (file)
        fclose(file);
    return gcry_sexp_new(&value, octets, length, 0) ? NULL : value;
}

int main(int count, char **words)
{
    static char octets[65536];
    gcry_sexp_t signature;
    gcry_check_version(NULL);
    gcry_error_t fault = count == 3 ? gcry_pk_sign(&signature, value_in(words[2]), value_in(words[1])) : 1;
    if (fault) {
        fprintf(stderr, "%s\n", gcry_strerror(fault));
        return 1;
    }
    size_t length = gcry_sexp_sprint(signature, GCRYSEXP_FMT_CANON, octets, sizeof octets);
    return fwrite(octets, 1, length, stdout) == length ? 0 : 1;
}
