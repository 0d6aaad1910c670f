/* What the descriptors of the example say, and who signs them. */
#include "samples.h"

#include "cap.h"

/* The clock that the example starts from, 2026-01-01 00:00:00 UTC, and spans of seconds. */
#define START UINT64_C(1767225600)
#define HOUR UINT64_C(3600)
#define DAY UINT64_C(86400)

/* The terminal, the fays and the issuers. */
#define TERMINAL "terminal:01927b34-7e21-7c4d-a89f-0123456789ab"
#define STUDENT "fay:01927b34-7e21-7c4d-a89f-1234567890ab"
#define STAFF "fay:01927b34-7e21-7c4d-a89f-fedcba098765"
#define LAB "Lab Office"
#define STRANGER "Another Lab"

/* The descriptor ids of the example, UUIDs of version 7, differ in their last two digits. */
#define ID(digits) "01927b34-7e21-7c4d-a89f-0000000000" digits

/* Ids that no submission takes any more: a descriptor id of version 4, and the student's id in upper case. */
#define VERSION_4_ID "919108f7-52d1-4320-9bac-f847db4148a8"
#define UPPER_CASE_STUDENT "fay:01927B34-7E21-7C4D-A89F-1234567890AB"

/* The modes as a mask has them. */
enum { READ = 1 << CAP_READ, WRITE = 1 << CAP_WRITE, EXECUTE = 1 << CAP_EXECUTE, CONFIGURE = 1 << CAP_CONFIGURE };

/* How many items an array has. */
#define COUNT(array) (sizeof(array) / sizeof((array)[0]))

/* The signers: two keys of the lab that don't end, one that ends after a day, and a stranger's that the terminal doesn't know. */
const signer signers[SIGNER_COUNT] = {
    [LAB_KEY] = {LAB, "lab-2026", CAP_ED25519, START - 90 * DAY, false, 0, true, NULL},
    [STAFF_KEY] = {LAB, "staff-2026", CAP_ECDSA_P256_SHA256, START - 90 * DAY, false, 0, true, "staff-2026.pem"},
    [GUEST_KEY] = {LAB, "guest-2025", CAP_ECDSA_P256_SHA256, START - 90 * DAY, true, START + DAY, true, NULL},
    [STRANGER_KEY] = {STRANGER, "lab-2026", CAP_ED25519, START - 90 * DAY, false, 0, false, NULL},
};

/* The student may read the cameras and the furnace's temperature, and open the door under a constraint. */
static const grant_fields student_grants[] = {
    {TERMINAL "/device/camera/*", READ, {NULL, NULL}},
    {TERMINAL "/device/furnace/temperature", READ, {NULL, NULL}},
    {TERMINAL "/device/door/main", EXECUTE, {"time_window", "08:00-18:00"}},
};

/* The staff member may also set and configure all of the furnace and the cameras. */
static const grant_fields staff_grants[] = {
    {TERMINAL "/device/furnace/**", READ | WRITE | CONFIGURE, {NULL, NULL}},
    {TERMINAL "/device/camera/**", READ | CONFIGURE, {NULL, NULL}},
};

/* The technician may read all devices by a broad grant; of the other grants, which name more levels, the last has a constraint. */
static const grant_fields technician_grants[] = {
    {TERMINAL "/device/**", READ, {NULL, NULL}},
    {TERMINAL "/device/furnace/*", READ | WRITE, {NULL, NULL}},
    {TERMINAL "/device/*/temperature", READ | CONFIGURE, {NULL, NULL}},
    {TERMINAL "/device/camera/front", READ | EXECUTE, {NULL, NULL}},
    {TERMINAL "/device/furnace/temperature", READ, {"time_window", "08:00-18:00"}},
};

/* The parent: its two grants of cameras together admit reading at every level below them. */
static const grant_fields parent_grants[] = {
    {TERMINAL "/device/camera/*", READ | WRITE, {NULL, NULL}},
    {TERMINAL "/device/camera/*/**", READ, {NULL, NULL}},
    {TERMINAL "/device/furnace/temperature", READ | WRITE, {NULL, NULL}},
};

/* A child inside: its first grant is covered by two grants of the parent together, by none of them alone. */
static const grant_fields inside_grants[] = {
    {TERMINAL "/device/camera/**", READ, {NULL, NULL}},
    {TERMINAL "/device/furnace/temperature", READ, {NULL, NULL}},
};

/* A child that escapes: its second grant also writes two levels below the cameras, which the parent only reads. */
static const grant_fields escaping_grants[] = {
    {TERMINAL "/device/furnace/temperature", READ, {NULL, NULL}},
    {TERMINAL "/device/camera/**", READ | WRITE, {NULL, NULL}},
};

/* A payload of the lab for 30 days from a moment, issued an hour before it. */
#define LAB_PAYLOAD(digits, fay, from, grants) \
    {ID(digits), LAB, NULL, fay, TERMINAL, (from) - HOUR, from, (from) + 30 * DAY, {NULL, NULL}, grants, COUNT(grants)}

/* The payloads whose signatures a forger has put under other payloads. */
static const payload_fields student_payload = LAB_PAYLOAD("01", STUDENT, START, student_grants);
static const payload_fields staff_payload = LAB_PAYLOAD("02", STAFF, START, staff_grants);

/* The descriptors. Two have one id and other bytes: the student's, and the same without grantor and metadata. */
const sample samples[] = {
    {"student.cbor",
     LAB_KEY,
     {ID("01"), LAB, "Professor Weber", STUDENT, TERMINAL, START - HOUR, START, START + 30 * DAY, {"course", "furnaces 1"}, student_grants,
      COUNT(student_grants)},
     NULL},
    {"student-other.cbor", LAB_KEY, LAB_PAYLOAD("01", STUDENT, START, student_grants), NULL},
    {"staff.cbor", STAFF_KEY, LAB_PAYLOAD("02", STAFF, START, staff_grants), NULL},
    {"expired.cbor", LAB_KEY, LAB_PAYLOAD("03", STUDENT, START - 60 * DAY, student_grants), NULL},
    {"future.cbor", LAB_KEY, LAB_PAYLOAD("04", STUDENT, START + 12 * HOUR, student_grants), NULL},
    {"ahead.cbor", LAB_KEY, LAB_PAYLOAD("05", STUDENT, START + 2 * DAY, student_grants), NULL},
    {"stranger.cbor",
     STRANGER_KEY,
     {ID("06"), STRANGER, NULL, STUDENT, TERMINAL, START - HOUR, START, START + 30 * DAY, {NULL, NULL}, staff_grants, COUNT(staff_grants)},
     NULL},
    {"forged.cbor", LAB_KEY, LAB_PAYLOAD("07", STUDENT, START, staff_grants), &student_payload},
    {"forged-staff.cbor", STAFF_KEY, LAB_PAYLOAD("08", STUDENT, START, staff_grants), &staff_payload},
    {"guest.cbor", GUEST_KEY, LAB_PAYLOAD("09", STUDENT, START, student_grants), NULL},
    {"long.cbor",
     LAB_KEY,
     {ID("0e"), LAB, NULL, STUDENT, TERMINAL, START, START, START + 91 * DAY, {NULL, NULL}, student_grants, COUNT(student_grants)},
     NULL},
    {"version-4.cbor",
     LAB_KEY,
     {VERSION_4_ID, LAB, NULL, STUDENT, TERMINAL, START - HOUR, START, START + 30 * DAY, {NULL, NULL}, student_grants, COUNT(student_grants)},
     NULL},
    {"upper-case.cbor", LAB_KEY, LAB_PAYLOAD("10", UPPER_CASE_STUDENT, START, student_grants), NULL},
    {"technician.cbor", STAFF_KEY, LAB_PAYLOAD("0f", STAFF, START, technician_grants), NULL},
    {"parent.cbor", LAB_KEY, LAB_PAYLOAD("0a", STAFF, START, parent_grants), NULL},
    {"child-inside.cbor", LAB_KEY, LAB_PAYLOAD("0b", STUDENT, START, inside_grants), NULL},
    {"child-escapes.cbor", LAB_KEY, LAB_PAYLOAD("0c", STUDENT, START, escaping_grants), NULL},
    {"child-later.cbor", LAB_KEY, LAB_PAYLOAD("0d", STUDENT, START + DAY, inside_grants), NULL},
};
const size_t sample_count = COUNT(samples);
