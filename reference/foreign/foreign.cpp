// Compares the ciphers and the mode with implementations by others: AES-128 of OpenSSL; Speck-64/128, CHAM-64/128 and
// CHAM-128/128 of Crypto++. README.md of reference/ says what this shows and what it does not.
//
//     foreign ciphers              reads records of suite, key, block and encryption (the program `ciphers`), and compares each
//     foreign records COUNT SEED   COMET over the foreign ciphers against the archive, COUNT random records of each suite
//
// The ciphers of a library that is missing at build time are skipped. The last line is `N passed, M failed, K skipped`.
#include <algorithm>
#include <array>
#include <cstdint>
#include <cstdio>
#include <cstdlib>
#include <cstring>
#include <vector>

#if __has_include(<openssl/evp.h>)
#include <openssl/evp.h>
#define HAS_OPENSSL 1
#else
#define HAS_OPENSSL 0
#endif
#if __has_include(<cryptopp/cham.h>) && __has_include(<cryptopp/speck.h>)
#include <cryptopp/cham.h>
#include <cryptopp/speck.h>
#define HAS_CRYPTOPP 1
#else
#define HAS_CRYPTOPP 0
#endif
#ifdef WITH_ARCHIVE
#include "snoekeldraf.h"
#endif

using Bytes = std::vector<uint8_t>;
using Cipher = void (*)(const uint8_t *key, const uint8_t *block, uint8_t *image);

// ---- the foreign ciphers

#if HAS_OPENSSL
static void aes128(const uint8_t *key, const uint8_t *block, uint8_t *image)
{
    static EVP_CIPHER_CTX *context = EVP_CIPHER_CTX_new();
    static const EVP_CIPHER *ecb = EVP_aes_128_ecb();
    int len = 0;
    if (EVP_EncryptInit_ex(context, ecb, nullptr, key, nullptr) != 1 || EVP_CIPHER_CTX_set_padding(context, 0) != 1 ||
        EVP_EncryptUpdate(context, image, &len, block, 16) != 1 || len != 16) {
        std::fprintf(stderr, "foreign: OpenSSL failed\n");
        std::exit(3);
    }
}
#endif

#if HAS_CRYPTOPP
static void speck64(const uint8_t *key, const uint8_t *block, uint8_t *image)
{
    CryptoPP::SPECK64::Encryption(key, 16).ProcessBlock(block, image);
}

// Reverses the bytes of each word: Crypto++ reads the words of CHAM big-endian.
static std::array<uint8_t, 16> reversed(const uint8_t *bytes, unsigned len, unsigned word)
{
    std::array<uint8_t, 16> result{};
    for (unsigned i = 0; i < len; i++) result[i] = bytes[i ^ (word - 1)];
    return result;
}

template <class Encryption, unsigned Len, unsigned Word>
static void cham(const uint8_t *key, const uint8_t *block, uint8_t *image)
{
    uint8_t out[16];
    Encryption(reversed(key, 16, Word).data(), 16).ProcessBlock(reversed(block, Len, Word).data(), out);
    std::memcpy(image, reversed(out, Len, Word).data(), Len);
}
#endif

struct Suite {
    const char *name;
    Cipher cipher; // null if its library is missing
    unsigned block, nonce;
    int version;
};

static Suite suite_of(unsigned number)
{
    Cipher aes = nullptr, speck = nullptr, cham64 = nullptr, cham128 = nullptr;
#if HAS_OPENSSL
    aes = aes128;
#endif
#if HAS_CRYPTOPP
    speck = speck64;
    cham64 = cham<CryptoPP::CHAM64::Encryption, 8, 2>;
    cham128 = cham<CryptoPP::CHAM128::Encryption, 16, 4>;
#endif
    switch (number) {
    case 1: return {"AES-128 (OpenSSL)", aes, 16, 16, 1};
    case 2: return {"CHAM-128/128 (Crypto++)", cham128, 16, 16, 1};
    case 3: return {"Speck-64/128 (Crypto++)", speck, 8, 15, 1};
    case 4: return {"CHAM-64/128 (Crypto++)", cham64, 8, 15, 1};
    case 5: return {"AES-128 (OpenSSL)", aes, 16, 16, 2};
    default: return {"Speck-64/128 (Crypto++)", speck, 8, 15, 2};
    }
}

// ---- results

static int passed, failed, skipped;

static void result(const char *what, const char *name, unsigned long count, unsigned long wrong)
{
    std::printf("%s: %s: %lu compared, %lu differ\n", what, name, count, wrong);
    (count > 0 && wrong == 0 ? passed : failed)++;
}

static void skip(const char *what, const char *name, const char *why)
{
    std::printf("%s: %s: skipped, %s\n", what, name, why);
    skipped++;
}

static int finish()
{
    std::printf("%d passed, %d failed, %d skipped\n", passed, failed, skipped);
    return failed != 0;
}

// ---- blocks

static int compare_blocks()
{
    unsigned long count[5] = {}, wrong[5] = {};
    int number;
    while ((number = std::getchar()) != EOF) {
        uint8_t bytes[48], image[16];
        if (number < 1 || number > 4) return std::fprintf(stderr, "foreign: no suite %d\n", number), 3;
        const Suite suite = suite_of((unsigned)number);
        const size_t len = 16 + 2 * suite.block;
        if (std::fread(bytes, 1, len, stdin) != len) return std::fprintf(stderr, "foreign: a record is cut short\n"), 3;
        if (suite.cipher == nullptr) continue;
        suite.cipher(bytes, bytes + 16, image);
        count[number]++;
        wrong[number] += std::memcmp(image, bytes + 16 + suite.block, suite.block) != 0;
    }
    for (unsigned i = 1; i <= 4; i++) {
        const Suite suite = suite_of(i);
        if (suite.cipher == nullptr) skip("blocks", suite.name, "its library is not there");
        else result("blocks", suite.name, count[i], wrong[i]);
    }
    return finish();
}

// ---- COMET, from docs/FORMAT.md and docs/comet-v2.md, over any cipher

// The mark before each cipher call after the start, the tag's included, computed from the lengths alone. In version 2 the
// marks of a block are added before the next call.
static Bytes marks_of(const Suite &suite, size_t ad, size_t msg)
{
    const size_t a = (ad + suite.block - 1) / suite.block, m = (msg + suite.block - 1) / suite.block;
    const size_t late = suite.version == 2 ? 1 : 0;
    Bytes marks(a + m + 1, 0);
    if (a > 0) marks[late] ^= 0x08;
    if (ad % suite.block != 0) marks[a - 1 + late] ^= 0x10;
    if (m > 0) marks[a + late] ^= 0x20;
    if (msg % suite.block != 0) marks[a + m - 1 + late] ^= 0x40;
    marks[a + m] ^= 0x80;
    return marks;
}

// Multiplies the lowest 8 bytes of Z by x modulo x^64 + x^4 + x^3 + x + 1, or in version 2 its lowest 15 bytes modulo
// x^120 + x^9 + x^6 + x^2 + 1.
static void next_key(uint8_t z[16], int version)
{
    const unsigned len = version == 2 ? 15 : 8, polynomial = version == 2 ? 0x245 : 0x1b;
    const unsigned dropped = z[len - 1] >> 7;
    for (unsigned i = len - 1; i > 0; i--) z[i] = (uint8_t)(z[i] << 1 | z[i - 1] >> 7);
    z[0] = (uint8_t)(z[0] << 1);
    z[0] ^= (uint8_t)(dropped * (polynomial & 0xff));
    z[1] ^= (uint8_t)(dropped * (polynomial >> 8));
}

// Maps (X3, X2, X1, X0) to (X1, X0, X2 rotated right by 1, X3), with X0 in the first bytes.
static void shuffle(const uint8_t *x, unsigned size, uint8_t *shuffled)
{
    const unsigned word = size / 4;
    for (unsigned i = 0; i < word; i++) {
        shuffled[i] = x[3 * word + i];
        shuffled[word + i] = (uint8_t)(x[2 * word + i] >> 1 | x[2 * word + (i + 1) % word] << 7);
        shuffled[2 * word + i] = x[i];
        shuffled[3 * word + i] = x[word + i];
    }
}

struct Record {
    Bytes key, nonce, ad, msg;
};

class Comet {
public:
    Comet(const Suite &suite, const Record &record)
        : suite(suite), marks(marks_of(suite, record.ad.size(), record.msg.size()))
    {
        const uint8_t zeros[16] = {};
        std::copy(record.key.begin(), record.key.end(), z);
        if (suite.block == 16) {
            std::copy(record.key.begin(), record.key.end(), y);
            suite.cipher(record.key.data(), record.nonce.data(), z);
        } else {
            suite.cipher(record.key.data(), zeros, y);
            for (unsigned i = 0; i < suite.nonce; i++) z[i] ^= record.nonce[i];
        }
    }

    // Absorbs a text; if `out` is given, the text is a message and its ciphertext is appended to `out`.
    void text(const Bytes &bytes, Bytes *out)
    {
        for (size_t at = 0; at < bytes.size(); at += suite.block) {
            const size_t len = std::min<size_t>(suite.block, bytes.size() - at);
            uint8_t x[16], mask[16];
            call(x);
            shuffle(x, suite.block, mask);
            std::copy(x, x + suite.block, y);
            for (size_t i = 0; i < len; i++) {
                y[i] ^= bytes[at + i];
                if (out != nullptr) out->push_back(bytes[at + i] ^ mask[i]);
            }
            if (len < suite.block) y[len] ^= 1;
        }
    }

    Bytes tag()
    {
        uint8_t x[16];
        call(x);
        return Bytes(x, x + suite.block);
    }

private:
    const Suite suite;
    const Bytes marks;
    size_t calls = 0;
    uint8_t y[16], z[16];

    void call(uint8_t *x)
    {
        z[15] ^= marks[calls++];
        next_key(z, suite.version);
        suite.cipher(z, y, x);
    }
};

// ---- records

static uint64_t state;

static uint64_t random_number()
{
    state ^= state << 13;
    state ^= state >> 7;
    state ^= state << 17;
    return state;
}

static Bytes random_bytes(size_t len)
{
    Bytes bytes(len);
    for (uint8_t &byte : bytes) byte = (uint8_t)(random_number() >> 24);
    return bytes;
}

// A random length: mostly short, with every remainder, sometimes long.
static size_t random_len()
{
    const uint64_t kind = random_number() % 100;
    return random_number() % (kind < 5 ? 1 : kind < 95 ? 70 : 2000);
}

#ifdef WITH_ARCHIVE
// Whether the archive seals the record to the same bytes and opens what the foreign ciphers sealed. Suite 4 is only opened.
static bool agrees(unsigned number, const Suite &suite, const Record &record)
{
    Bytes text, out(record.msg.size()), tag(suite.block), back(record.msg.size());
    Comet comet(suite, record);
    comet.text(record.ad, nullptr);
    comet.text(record.msg, &text);
    const Bytes own = comet.tag();
    const uint32_t status = comet_seal((uint8_t)number, record.key.data(), record.key.size(), record.nonce.data(),
                                       record.nonce.size(), record.ad.data(), record.ad.size(), record.msg.data(),
                                       record.msg.size(), out.data(), out.size(), tag.data(), tag.size());
    if (number == 4 ? status != SNOEKELDRAF_SUITE_RETIRED : status != 0 || out != text || tag != own) return false;
    return comet_open((uint8_t)number, record.key.data(), record.key.size(), record.nonce.data(), record.nonce.size(),
                      record.ad.data(), record.ad.size(), text.data(), text.size(), own.data(), own.size(), back.data(),
                      back.size()) == 0 && back == record.msg;
}
#endif

static int compare_records(unsigned long count)
{
    for (unsigned number = 1; number <= 6; number++) {
        const Suite suite = suite_of(number);
        char what[40];
        std::snprintf(what, sizeof what, "COMET version %d, suite %u", suite.version, number);
        if (suite.cipher == nullptr) {
            skip(what, suite.name, "its library is not there");
            continue;
        }
#ifdef WITH_ARCHIVE
        unsigned long wrong = 0;
        for (unsigned long i = 0; i < count; i++) {
            const Record record = {random_bytes(16), random_bytes(suite.nonce), random_bytes(random_len()),
                                   random_bytes(random_len())};
            wrong += !agrees(number, suite, record);
        }
        result(what, suite.name, count, wrong);
#else
        (void)count;
        skip(what, suite.name, "there is no archive (./run library)");
#endif
    }
    return finish();
}

int main(int count, char **words)
{
    if (count == 2 && std::strcmp(words[1], "ciphers") == 0) return compare_blocks();
    if (count == 4 && std::strcmp(words[1], "records") == 0) {
        state = std::strtoull(words[3], nullptr, 10) * 0x9e3779b97f4a7c15u | 1;
        return compare_records(std::strtoul(words[2], nullptr, 10));
    }
    std::fprintf(stderr, "usage: foreign ciphers | foreign records COUNT SEED\n");
    return 2;
}
