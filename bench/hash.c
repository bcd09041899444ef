/* Times crate hash, by its functions for C in crate hash_c, against OpenSSL, for bench/hash.py.
   Both sides have to give the same bytes. Then a line is written for each measure: its name,
   the bytes of one call, and the median time of one call in nanoseconds, ours and OpenSSL's
   (0 where OpenSSL has no such call). The two sides and all measures take turns. */
#define OPENSSL_API_COMPAT 0x10100000L /* for PKCS1_MGF1 */
#include <openssl/evp.h>
#include <openssl/rsa.h>
#include <stdint.h>
#include <stdio.h>
#include <stdlib.h>
#include <string.h>
#include <time.h>

void hash_shake128(const uint8_t *input, size_t input_length, uint8_t *out, size_t out_length);
void hash_shake128_of_five(const uint8_t *a, size_t a_length, const uint8_t *b, size_t b_length,
                           const uint8_t *c, size_t c_length, const uint8_t *d, size_t d_length,
                           const uint8_t *e, size_t e_length, uint8_t *out, size_t out_length);
void hash_sha256(const uint8_t *input, size_t input_length, uint8_t digest[32]);
void hash_mgf1_sha256(const uint8_t *input, size_t input_length, uint8_t *out, size_t out_length);
uint64_t hash_permute(size_t times);

#define SHORT (16 << 10)
#define LONG (1 << 20)
#define SAMPLES 101

static uint8_t input[LONG], our_out[LONG], their_out[LONG];
static EVP_MD_CTX *context;
static EVP_MD *shake128, *sha256;
static volatile uint64_t lane;

static void must(int ok, const char *what) {
    if (!ok) {
        fprintf(stderr, "hash: %s\n", what);
        exit(1);
    }
}

static void our_shake128(size_t in, size_t out) {
    hash_shake128(input, in, our_out, out);
}

static void their_shake128(size_t in, size_t out) {
    EVP_DigestInit_ex2(context, shake128, NULL);
    EVP_DigestUpdate(context, input, in);
    EVP_DigestFinalXOF(context, their_out, out);
}

static const size_t pieces[5] = {1, 16, 32, 2, 2};

static void our_pieces(size_t in, size_t out) {
    (void)in;
    hash_shake128_of_five(input, pieces[0], input + 1, pieces[1], input + 17, pieces[2],
                          input + 49, pieces[3], input + 51, pieces[4], our_out, out);
}

static void their_pieces(size_t in, size_t out) {
    size_t place = 0;
    (void)in;
    EVP_DigestInit_ex2(context, shake128, NULL);
    for (int i = 0; i < 5; i++) {
        EVP_DigestUpdate(context, input + place, pieces[i]);
        place += pieces[i];
    }
    EVP_DigestFinalXOF(context, their_out, out);
}

static void our_sha256(size_t in, size_t out) {
    (void)out;
    hash_sha256(input, in, our_out);
}

static void their_sha256(size_t in, size_t out) {
    (void)out;
    EVP_DigestInit_ex2(context, sha256, NULL);
    EVP_DigestUpdate(context, input, in);
    EVP_DigestFinal_ex(context, their_out, NULL);
}

static void our_mgf1(size_t in, size_t out) {
    hash_mgf1_sha256(input, in, our_out, out);
}

static void their_mgf1(size_t in, size_t out) {
    PKCS1_MGF1(their_out, (long)out, input, (long)in, sha256);
}

/* `in` is the number of permutations */
static void our_permutations(size_t in, size_t out) {
    (void)out;
    lane = hash_permute(in);
}

typedef void call(size_t in, size_t out);

/* A sample is the time of `calls` calls. */
static const struct measure {
    const char *name;
    call *ours, *theirs;
    size_t in, out, bytes;
    int calls;
} measures[] = {
    {"SHAKE128, feed 16 KiB", our_shake128, their_shake128, SHORT, 32, SHORT, 8},
    {"SHAKE128, feed 1 MiB", our_shake128, their_shake128, LONG, 32, LONG, 1},
    {"SHAKE128, read 16 KiB", our_shake128, their_shake128, 32, SHORT, SHORT, 8},
    {"SHAKE128, read 1 MiB", our_shake128, their_shake128, 32, LONG, LONG, 1},
    {"SHA-256, feed 16 KiB", our_sha256, their_sha256, SHORT, 32, SHORT, 8},
    {"SHA-256, feed 1 MiB", our_sha256, their_sha256, LONG, 32, LONG, 1},
    {"MGF1-SHA-256, read 16 KiB", our_mgf1, their_mgf1, 32, SHORT, SHORT, 4},
    {"SHAKE128, 53 bytes in 5 pieces, read 112", our_pieces, their_pieces, 53, 112, 165, 1000},
    {"Keccak permutation", our_permutations, NULL, 1000, 0, 0, 1},
};
#define MEASURES (sizeof measures / sizeof measures[0])

static double our_times[MEASURES][SAMPLES], their_times[MEASURES][SAMPLES];

static void check_same(const struct measure *of) {
    if (of->theirs == NULL)
        return;
    memset(our_out, 0, sizeof our_out);
    memset(their_out, 1, sizeof their_out);
    of->ours(of->in, of->out);
    of->theirs(of->in, of->out);
    must(memcmp(our_out, their_out, of->out) == 0, of->name);
}

static double sample(call *side, const struct measure *of) {
    struct timespec start, end;
    clock_gettime(CLOCK_MONOTONIC, &start);
    for (int i = 0; i < of->calls; i++)
        side(of->in, of->out);
    clock_gettime(CLOCK_MONOTONIC, &end);
    return ((end.tv_sec - start.tv_sec) * 1e9 + (end.tv_nsec - start.tv_nsec)) / of->calls;
}

static int compare(const void *a, const void *b) {
    double x = *(const double *)a, y = *(const double *)b;
    return (x > y) - (x < y);
}

static double median(double *times) {
    qsort(times, SAMPLES, sizeof *times, compare);
    return times[SAMPLES / 2];
}

static void take_samples(int number) {
    for (size_t m = 0; m < MEASURES; m++) {
        our_times[m][number] = sample(measures[m].ours, &measures[m]);
        if (measures[m].theirs != NULL)
            their_times[m][number] = sample(measures[m].theirs, &measures[m]);
    }
}

int main(void) {
    context = EVP_MD_CTX_new();
    shake128 = EVP_MD_fetch(NULL, "SHAKE128", NULL);
    sha256 = EVP_MD_fetch(NULL, "SHA2-256", NULL);
    must(context != NULL && shake128 != NULL && sha256 != NULL, "OpenSSL lacks a hash");
    for (size_t i = 0; i < sizeof input; i++)
        input[i] = (uint8_t)(i * i + 7 * i + i / 256);
    for (size_t m = 0; m < MEASURES; m++)
        check_same(&measures[m]);
    must(hash_permute(1) == 0xF1258F7940E1DDE7, "the permutation of zeros is another");
    for (int number = 0; number < SAMPLES; number++)
        take_samples(number);
    for (size_t m = 0; m < MEASURES; m++) {
        double count = measures[m].theirs == NULL ? (double)measures[m].in : 1;
        printf("%s\t%zu\t%.2f\t%.2f\n", measures[m].name, measures[m].bytes,
               median(our_times[m]) / count, median(their_times[m]) / count);
    }
    return 0;
}
