/*
 * How many places a second crate `orders` makes, and how many octets a second crate `digests` digests, beside OpenSSL's
 * libcrypto and libldns. See docs/PERFORMANCE.md; bench/run builds this program and runs it.
 */
/* SHA1_Init, SHA1_Update and SHA1_Final are deprecated since OpenSSL 3.0 */
#define OPENSSL_SUPPRESS_DEPRECATED
#include <ldns/ldns.h>
#include <openssl/crypto.h>
#include <openssl/sha.h>
#include <stdint.h>
#include <stdio.h>
#include <stdlib.h>
#include <string.h>
#include <time.h>

/* crate places_ffi: a slice is passed as a pointer and a length, an array behind a reference as a pointer */
size_t digest_sha1(const uint8_t *a, size_t a_len, const uint8_t *b, size_t b_len, uint8_t *out);
size_t place_sha1(const uint8_t *name, size_t name_len, const uint8_t *salt, size_t salt_len, uint16_t iterations,
                  uint8_t *out);

enum { NAMES = 1024, MAX_NAME = 255, SHA1_LEN = 20, SALT_LEN = 8, RUNS = 250, WAYS = 4 };

/* how long one run takes, about, and how long one warms up before all of them */
static const double RUN_SECONDS = 0.003;
static const double WARM_SECONDS = 0.1;

static const uint8_t SALT[SALT_LEN] = {0xaa, 0xbb, 0xcc, 0xdd, 0x01, 0x23, 0x45, 0x67};

struct name {
    uint8_t wire[MAX_NAME];
    size_t len;
    ldns_rdf *rdf;
};

static struct name names[NAMES];
static uint8_t message[64 * 1024];

/* what every call that is timed adds to, so that none can be left out */
static volatile uint64_t sink;

static void fail(const char *what)
{
    fprintf(stderr, "places: %s\n", what);
    exit(1);
}

/* the processor's time spent here, so that what else runs meanwhile counts less */
static double now(void)
{
    struct timespec t;
    clock_gettime(CLOCK_THREAD_CPUTIME_ID, &t);
    return (double)t.tv_sec + (double)t.tv_nsec * 1e-9;
}

/* the names host10000.example. to host11023.example., some letters in upper case */
static void make_names(void)
{
    for (int i = 0; i < NAMES; i++) {
        char text[32];
        snprintf(text, sizeof text, "%s%d.Example.", i % 2 ? "host" : "Host", 10000 + i);
        names[i].rdf = ldns_dname_new_frm_str(text);
        if (!names[i].rdf)
            fail("libldns reads no name from a text");
        names[i].len = ldns_rdf_size(names[i].rdf);
        memcpy(names[i].wire, ldns_rdf_data(names[i].rdf), names[i].len);
    }
}

static void make_message(void)
{
    uint32_t x = 1;
    for (size_t i = 0; i < sizeof message; i++) {
        x = x * 1664525u + 1013904223u;
        message[i] = (uint8_t)(x >> 24);
    }
}

/* Places, one name at a time, to the front of out. */

static void place_ours(const struct name *n, uint16_t k, uint8_t *out)
{
    if (place_sha1(n->wire, n->len, SALT, SALT_LEN, k, out) != SHA1_LEN)
        fail("our place was refused");
}

static void sha1_whole(const uint8_t *octets, size_t len, uint8_t *out)
{
    SHA1(octets, len, out);
}

static void sha1_parts(const uint8_t *octets, size_t len, uint8_t *out)
{
    SHA_CTX c;
    SHA1_Init(&c);
    SHA1_Update(&c, octets, len);
    SHA1_Final(out, &c);
}

typedef void sha1_fn(const uint8_t *octets, size_t len, uint8_t *out);

/* the steps of a salted order by a digest of OpenSSL's */
static inline void iterate(sha1_fn *sha1, const struct name *n, uint16_t k, uint8_t *out)
{
    uint8_t buffer[MAX_NAME + SALT_LEN];
    for (size_t i = 0; i < n->len; i++) {
        uint8_t x = n->wire[i];
        buffer[i] = x >= 'A' && x <= 'Z' ? x + 32 : x;
    }
    memcpy(buffer + n->len, SALT, SALT_LEN);
    sha1(buffer, n->len + SALT_LEN, out);
    memcpy(buffer + SHA1_LEN, SALT, SALT_LEN);
    for (uint16_t i = 0; i < k; i++) {
        memcpy(buffer, out, SHA1_LEN);
        sha1(buffer, SHA1_LEN + SALT_LEN, out);
    }
}

static void place_whole(const struct name *n, uint16_t k, uint8_t *out)
{
    iterate(sha1_whole, n, k, out);
}

static void place_parts(const struct name *n, uint16_t k, uint8_t *out)
{
    iterate(sha1_parts, n, k, out);
}

/* libldns answers with a label, the place in base 32, which it allocates; out gets one octet of it */
static void place_ldns(const struct name *n, uint16_t k, uint8_t *out)
{
    ldns_rdf *label = ldns_nsec3_hash_name(n->rdf, LDNS_SHA1, k, SALT_LEN, SALT);
    if (!label)
        fail("libldns refused a name");
    out[0] = ldns_rdf_data(label)[1];
    ldns_rdf_deep_free(label);
}

/* our digest of name and salt alone: the name neither checked nor put into lower case, no order made */
static void digest_only(const struct name *n, uint16_t k, uint8_t *out)
{
    (void)k;
    digest_sha1(n->wire, n->len, SALT, SALT_LEN, out);
}

typedef void place_fn(const struct name *n, uint16_t k, uint8_t *out);

/* Digests of the first len octets of the message. */

static void digest_ours(size_t len, uint8_t *out)
{
    digest_sha1(message, len, message, 0, out);
}

static void digest_whole(size_t len, uint8_t *out)
{
    sha1_whole(message, len, out);
}

static void digest_parts(size_t len, uint8_t *out)
{
    sha1_parts(message, len, out);
}

static void digest_ldns(size_t len, uint8_t *out)
{
    ldns_sha1(message, (unsigned)len, out);
}

typedef void digest_fn(size_t len, uint8_t *out);

/* One job: a way to make places at k, or to digest messages of one length. */
struct job {
    place_fn *place;
    digest_fn *digest;
    uint16_t k;
    size_t len;
    uint64_t count;
    double best;
};

/* the seconds that count calls take */
static double seconds(const struct job *j, uint64_t count)
{
    uint8_t out[MAX_NAME] = {0};
    uint64_t sum = 0;
    double start = now();
    for (uint64_t i = 0; i < count; i++) {
        if (j->place)
            j->place(&names[i % NAMES], j->k, out);
        else
            j->digest(j->len, out);
        sum += out[0];
    }
    double took = now() - start;
    sink += sum;
    return took;
}

/* warms up, and finds how many calls a run has */
static void warm(struct job *j)
{
    uint64_t count = 1;
    double took = 0;
    double until = now() + WARM_SECONDS;
    do {
        took = seconds(j, count);
        if (took < RUN_SECONDS / 4)
            count *= 2;
    } while (now() < until);
    j->count = (uint64_t)((double)count * RUN_SECONDS / took) + 1;
    j->best = 0;
}

/* the most calls a second of several runs; the jobs take turns, so that a busy moment hits them alike */
static void measure(struct job *jobs, size_t n)
{
    for (size_t i = 0; i < n; i++)
        warm(&jobs[i]);
    for (int run = 0; run < RUNS; run++)
        for (size_t i = 0; i < n; i++) {
            double rate = (double)jobs[i].count / seconds(&jobs[i], jobs[i].count);
            if (rate > jobs[i].best)
                jobs[i].best = rate;
        }
}

static const uint16_t KS[] = {0, 10, 150};
static const size_t LENS[] = {64, 1024, 64 * 1024};

/* a place of 20 octets as libldns gives it: 32 letters and digits of base 32 */
static void as_base32(const uint8_t *place, char *text)
{
    static const char digits[] = "0123456789abcdefghijklmnopqrstuv";
    for (int i = 0; i < 32; i++) {
        int bit = i * 5;
        int pair = place[bit / 8] << 8 | (bit / 8 + 1 < SHA1_LEN ? place[bit / 8 + 1] : 0);
        text[i] = digits[pair >> (11 - bit % 8) & 31];
    }
    text[32] = 0;
}

static void compare_places(void)
{
    for (size_t i = 0; i < sizeof KS / sizeof *KS; i++)
        for (int n = 0; n < NAMES; n++) {
            uint8_t ours[MAX_NAME] = {0}, whole[MAX_NAME] = {0}, parts[MAX_NAME] = {0};
            char text[33];
            place_ours(&names[n], KS[i], ours);
            place_whole(&names[n], KS[i], whole);
            place_parts(&names[n], KS[i], parts);
            if (memcmp(ours, whole, SHA1_LEN) || memcmp(ours, parts, SHA1_LEN))
                fail("a place differs from OpenSSL's");
            ldns_rdf *label = ldns_nsec3_hash_name(names[n].rdf, LDNS_SHA1, KS[i], SALT_LEN, SALT);
            as_base32(ours, text);
            if (!label || ldns_rdf_data(label)[0] != 32 || memcmp(ldns_rdf_data(label) + 1, text, 32))
                fail("a place differs from libldns's");
            ldns_rdf_deep_free(label);
        }
}

/* all lengths up to a few blocks, where the padding takes each of its forms, and the lengths that are timed */
static void compare_digest(size_t len)
{
    uint8_t ours[MAX_NAME] = {0}, whole[MAX_NAME] = {0}, parts[MAX_NAME] = {0}, ldns[MAX_NAME] = {0};
    digest_ours(len, ours);
    digest_whole(len, whole);
    digest_parts(len, parts);
    digest_ldns(len, ldns);
    if (memcmp(ours, whole, SHA1_LEN) || memcmp(ours, parts, SHA1_LEN) || memcmp(ours, ldns, SHA1_LEN))
        fail("a digest differs from OpenSSL's or libldns's");
}

static void compare_digests(void)
{
    for (size_t len = 0; len <= 260; len++)
        compare_digest(len);
    for (size_t i = 0; i < sizeof LENS / sizeof *LENS; i++)
        compare_digest(LENS[i]);
}

/* the rates of ours, of OpenSSL's two ways and of libldns, and ours over each of theirs */
static void row(const char *what, const struct job *jobs, double unit)
{
    printf("%-21s", what);
    for (int i = 0; i < WAYS; i++)
        printf(" %9.1f", jobs[i].best * unit);
    for (int i = 1; i < WAYS; i++)
        printf(" %8.2f", jobs[0].best / jobs[i].best);
    printf("\n");
}

static void heading(const char *what)
{
    printf("\n%-21s %9s %9s %9s %9s %8s %8s %8s\n", what, "ours", "SHA1()", "SHA1_*", "libldns", "/SHA1()", "/SHA1_*",
           "/libldns");
}

static void time_places(void)
{
    heading("1000 places a second");
    for (size_t i = 0; i < sizeof KS / sizeof *KS; i++) {
        struct job jobs[] = {{.place = place_ours, .k = KS[i]},
                             {.place = place_whole, .k = KS[i]},
                             {.place = place_parts, .k = KS[i]},
                             {.place = place_ldns, .k = KS[i]},
                             {.place = digest_only}};
        char what[32];
        measure(jobs, WAYS + (KS[i] == 0));
        snprintf(what, sizeof what, "k = %u", (unsigned)KS[i]);
        row(what, jobs, 1e-3);
        if (KS[i] == 0)
            printf("  our digest of name and salt alone: %.0f ns; our place: %.0f ns\n", 1e9 / jobs[WAYS].best,
                   1e9 / jobs[0].best);
    }
}

static void time_digests(void)
{
    heading("10^6 octets a second");
    for (size_t i = 0; i < sizeof LENS / sizeof *LENS; i++) {
        struct job jobs[] = {{.digest = digest_ours, .len = LENS[i]},
                             {.digest = digest_whole, .len = LENS[i]},
                             {.digest = digest_parts, .len = LENS[i]},
                             {.digest = digest_ldns, .len = LENS[i]}};
        char what[32];
        measure(jobs, WAYS);
        snprintf(what, sizeof what, "%zu octets", LENS[i]);
        row(what, jobs, (double)LENS[i] * 1e-6);
    }
}

int main(void)
{
    make_names();
    make_message();
    compare_places();
    compare_digests();
    printf("%s; libldns %s\n", OpenSSL_version(OPENSSL_VERSION), ldns_version());
    printf("%d names of %zu octets, salt of %d octets; all gave the same octets; best of %d runs\n", NAMES,
           names[0].len, SALT_LEN, RUNS);
    time_places();
    time_digests();
    return 0;
}
