#!/usr/bin/env bash
# Runs the example host end to end, prints what it says, and checks each end status and each line that decides; ends with 1 at the first
# answer that is not what must come.
#
#   demo.sh [BUILD-FOLDER]     CAP_LIB names the library where it isn't ../../target/staticlib/libcap.a
set -euo pipefail

here=$(cd "$(dirname "$0")" && pwd)
cap_lib=$(realpath -m "${CAP_LIB:-$here/../../target/staticlib/libcap.a}")
build=${1:-$here/../../target/host}
mkdir -p "$build"
build=$(cd "$build" && pwd)
make --silent --no-print-directory -C "$here" BUILD="$build" CAP_LIB="$cap_lib"

# A fresh folder in which everything happens.
rm -rf "$build/demo"
mkdir "$build/demo"
cd "$build/demo"
"$build/issue" .

# The clock, which stands where it is set, and the names that the descriptors have.
start=1767225600
hour=3600
day=86400
terminal=terminal:01927b34-7e21-7c4d-a89f-0123456789ab
other_terminal=terminal:01927b34-7e21-7c4d-a89f-ffffffffffff
device=$terminal/device
student=fay:01927b34-7e21-7c4d-a89f-1234567890ab
staff=fay:01927b34-7e21-7c4d-a89f-fedcba098765
id=01927b34-7e21-7c4d-a89f-0000000000
version_4=919108f7-52d1-4320-9bac-f847db4148a8
checked=0

# Prints a heading.
heading() {
    printf '\n== %s\n' "$*"
}

# Ends the run: what came is not what must come.
mismatch() {
    printf '\nMISMATCH: %s\n' "$*"
    exit 1
}

# must STATUS LINE... -- ARGUMENT...: runs the host, and it must end with the status and print each of the lines.
must() {
    local status=$1 came=0 output line lines=()
    shift
    while [ "$1" != -- ]; do
        lines+=("$1")
        shift
    done
    shift
    printf '\n$ host %s\n' "$*" | fold -s -w 140 | sed 's/^[^$]/      &/; s/ $//'
    output=$("$build/host" "$@" 2>&1) || came=$?
    printf '%s\n' "$output" | sed 's/^/  /'
    printf '  [ends with %s]\n' "$came"
    [ "$came" = "$status" ] || mismatch "it must end with $status"
    for line in "${lines[@]}"; do
        grep -qxF -e "$line" <<<"$output" || mismatch "this line must come: $line"
    done
    checked=$((checked + 1))
}

# unchanged FILE COPY: the file is as it was.
unchanged() {
    cmp -s "$1" "$2" || mismatch "$1 must be unchanged"
    printf '  [%s is unchanged]\n' "$1"
}

# one_moment FILE COPY: of the file only the last-used moment of its first descriptor has changed, 8 bytes from 40 on.
one_moment() {
    cmp -s "$1" "$2" && mismatch "$1 must have changed"
    cmp -s <(head -c 40 "$1") <(head -c 40 "$2") && cmp -s <(tail -c +49 "$1") <(tail -c +49 "$2") || mismatch "only 8 bytes of $1 may have changed"
    printf '  [of %s 8 bytes have changed]\n' "$1"
}

heading 'A new image'
must 0 'new image: 8192 bytes, no descriptor' -- new image 8192
must 1 'refused: output too short (17)' -- new tiny 7
must 2 'error: cannot make a new image: image: the file is there already' -- new image 8192

heading 'What the student has got from the lab'
must 0 "descriptor ${id}01" \
    '  grant 1' "    pattern: \"$device/furnace/temperature\"" '    modes: read' \
    '    constraint: "time_window" = "08:00-18:00"' -- show student.cbor

heading 'Submissions that are taken'
must 0 "stored: descriptor ${id}01" '  key: "lab-2026" of issuer "Lab Office" for ed25519: signature good' \
    -- submit image keys.txt student.cbor $start
cp image image.before
must 0 "held already: descriptor ${id}01" -- submit image keys.txt student.cbor $start
unchanged image image.before
must 0 "stored: descriptor ${id}02" '  key: "staff-2026" of issuer "Lab Office" for ecdsa-p256-sha256: signature good' \
    -- submit image keys.txt staff.cbor $start
must 0 "stored: descriptor ${id}03" -- submit image keys.txt expired.cbor $start
must 0 "stored: descriptor ${id}04" -- submit image keys.txt future.cbor $start
must 0 "stored: descriptor ${id}09" -- submit image keys.txt guest.cbor $start
must 0 "stored: descriptor ${id}0f" -- submit image keys.txt technician.cbor $start

heading 'Submissions that are refused, each of which leaves the image as it was'
cp image image.before
must 1 'refused: E_DUPLICATE_DESCRIPTOR_ID (5)' '  step: 3, deduplication check' -- submit image keys.txt student-other.cbor $start
must 1 'refused: E_UNKNOWN_ISSUER (3)' '  step: 2, signature validation' \
    '  key: "lab-2026" of issuer "Another Lab" for ed25519: no such key' -- submit image keys.txt stranger.cbor $start
must 1 'refused: E_INVALID_SIGNATURE (4)' '  key: "lab-2026" of issuer "Lab Office" for ed25519: signature bad' \
    -- submit image keys.txt forged.cbor $start
must 1 'refused: E_INVALID_SIGNATURE (4)' '  key: "staff-2026" of issuer "Lab Office" for ecdsa-p256-sha256: signature bad' \
    -- submit image keys.txt forged-staff.cbor $start
must 1 'refused: E_VERIFICATION_KEY_INVALID (14)' -- submit image keys.txt guest.cbor $((start + 2 * day))
must 1 'refused: E_VALIDITY_OUT_OF_RANGE (2)' '  step: 1, structural validation' -- submit image keys.txt ahead.cbor $start
must 1 'refused: E_VALIDITY_OUT_OF_RANGE (2)' -- submit image keys.txt long.cbor $start
head -c 500 student.cbor >cut.cbor
must 1 'refused: E_INVALID_STRUCTURE (1)' '  step: 1, structural validation' -- submit image keys.txt cut.cbor $start
ids_hint="  hint: the descriptor reads, so one of its ids isn't a UUID of version 7 (RFC 9562) in lower case; ask the issuer for a new descriptor"
must 1 'refused: E_INVALID_STRUCTURE (1)' '  step: 1, structural validation' "$ids_hint" "  id: $version_4" \
    -- submit image keys.txt version-4.cbor $start
must 1 'refused: E_INVALID_STRUCTURE (1)' "$ids_hint" '  fay: "fay:01927B34-7E21-7C4D-A89F-1234567890AB"' -- submit image keys.txt upper-case.cbor $start
unchanged image image.before

heading 'A file that is not the image, and an image that has no room'
cp keys.txt not-image
must 1 'refused: bad image (16)' '  step: before all steps: the image' -- submit not-image keys.txt student.cbor $start
unchanged not-image keys.txt
must 0 'new image: 256 bytes, no descriptor' -- new small 256
must 1 'refused: E_STORAGE_FULL (6)' '  step: 4, storage' -- submit small keys.txt student.cbor $start

# ask STATUS LINE... -- ID-END FAY TERMINAL RESOURCE MODE NOW [REVOKED-FILE [LEASE-FILE]]: a request to the image for a session of at most an hour.
ask() {
    local expected=()
    while [ "$1" != -- ]; do
        expected+=("$1")
        shift
    done
    shift
    local id_end=$1 fay=$2 at=$3 resource=$4 mode=$5 now=$6
    shift 6
    must "${expected[@]}" -- request image keys.txt "$id$id_end" "$fay" "$at" "$resource" "$mode" "$now" $hour "$@"
}

heading 'A request that is granted writes the moment of the last use to the image; no other request does'
cp image image.before
ask 0 "  last used, written: $((start + 2 * hour)) (2026-01-01 02:00:00 UTC)" \
    -- 01 "$student" "$terminal" "$device/camera/front" read $((start + 2 * hour))
one_moment image image.before
cp image image.before
ask 0 "granted: read of \"$device/camera/front\"" -- 01 "$student" "$terminal" "$device/camera/front" read $((start + hour))
unchanged image image.before
ask 1 'refused: E_AUTHORIZATION_INSUFFICIENT (13)' -- 02 "$staff" "$terminal" "$device/door/main" execute $((start + day))
unchanged image image.before

heading 'Requests that are granted'
ask 0 "granted: read of \"$device/furnace/temperature\"" '  grant 1' "    pattern: \"$device/furnace/temperature\"" '    modes: read' \
    "  session end: $((start + 2 * hour)) (2026-01-01 02:00:00 UTC)" \
    -- 01 "$student" "$terminal" "$device/furnace/temperature" read $((start + hour))
ask 0 '  grant 0' "    pattern: \"$device/camera/*\"" '    levels matched by equal names: 2' '  grants that serve: 1' \
    -- 01 "$student" "$terminal" "$device/camera/front" read $start
ask 0 '  grant 0' '    modes: read, write, configure' \
    -- 02 "$staff" "$terminal" "$device/furnace/zone-2/limit" configure $((start + hour))
ask 0 "  session end: $((start + 30 * day)) (2026-01-31 00:00:00 UTC)" \
    -- 01 "$student" "$terminal" "$device/camera/front" read $((start + 30 * day - 1))

heading 'Requests that several grants serve: the most exact one is named'
must 0 '  grant 0' "    pattern: \"$device/**\"" '  grant 3' "    pattern: \"$device/camera/front\"" -- show technician.cbor
ask 0 '  grant 0' "    pattern: \"$device/**\"" '    levels matched by equal names: 1' '  grants that serve: 1' \
    -- 0f "$staff" "$terminal" "$device/door/main" read $start
ask 0 '  grant 3' "    pattern: \"$device/camera/front\"" '    modes: read, execute' '    levels matched by equal names: 3' \
    '  grants that serve: 2, of which this one has most such levels' \
    -- 0f "$staff" "$terminal" "$device/camera/front" read $start
ask 0 '  grant 1' "    pattern: \"$device/furnace/*\"" '    modes: read, write' '    levels matched by equal names: 2' \
    '  grants that serve: 3, of which 2 have most such levels, this one first' \
    -- 0f "$staff" "$terminal" "$device/furnace/temperature" read $start
ask 0 '  grant 2' "    pattern: \"$device/*/temperature\"" '    modes: read, configure' '  grants that serve: 1' \
    -- 0f "$staff" "$terminal" "$device/furnace/temperature" configure $start
ask 1 'refused: E_AUTHORIZATION_INSUFFICIENT (13)' -- 0f "$staff" "$terminal" "$device/furnace/temperature" execute $start

heading 'Requests that are refused'
ask 1 'refused: E_AUTHORIZATION_INSUFFICIENT (13)' '  step: 6, resource and mode match' \
    -- 01 "$student" "$terminal" "$device/furnace/temperature" write $((start + hour))
ask 1 'refused: E_AUTHORIZATION_INSUFFICIENT (13)' -- 01 "$student" "$terminal" "$device/door/main" execute $((start + hour))
printf '# revoked by the lab\n%s\n' "${id}01" >revoked.txt
ask 1 'refused: E_DESCRIPTOR_REVOKED (8)' '  step: 2, revocation status' \
    -- 01 "$student" "$terminal" "$device/furnace/temperature" read $((start + hour)) revoked.txt
ask 1 'refused: E_DESCRIPTOR_EXPIRED (10)' '  step: 3, validity period' \
    -- 03 "$student" "$terminal" "$device/furnace/temperature" read $start
ask 1 'refused: E_DESCRIPTOR_EXPIRED (10)' -- 01 "$student" "$terminal" "$device/camera/front" read $((start + 30 * day))
ask 1 'refused: E_DESCRIPTOR_NOT_YET_VALID (9)' '  step: 3, validity period' \
    -- 04 "$student" "$terminal" "$device/furnace/temperature" read $start
ask 1 'refused: E_SUBJECT_MISMATCH (11)' '  step: 4, subject match' \
    -- 02 "$student" "$terminal" "$device/furnace/temperature" read $start
ask 1 'refused: E_TERMINAL_MISMATCH (12)' '  step: 5, terminal match' \
    -- 01 "$student" "$other_terminal" "$device/furnace/temperature" read $start
ask 1 'refused: E_DESCRIPTOR_NOT_FOUND (7)' '  step: 1, credential existence' \
    -- 99 "$student" "$terminal" "$device/furnace/temperature" read $start
ask 1 'refused: malformed arguments (15)' '  step: before all steps: arguments' \
    -- 01 fay:nobody "$terminal" "$device/furnace/temperature" read $start
ask 1 'refused: malformed arguments (15)' -- 01 "$student" "$terminal" "$device//temperature" read $start
ask 1 'refused: E_VERIFICATION_KEY_INVALID (14)' '  step: 7, signature validation' \
    -- 09 "$student" "$terminal" "$device/furnace/temperature" read $((start + 2 * day))
grep -v lab-2026 keys.txt >fewer-keys.txt
must 1 'refused: E_VERIFICATION_KEY_INVALID (14)' '  key: "lab-2026" of issuer "Lab Office" for ed25519: no such key' \
    -- request image fewer-keys.txt "${id}01" "$student" "$terminal" "$device/camera/front" read $start $hour

heading 'A revocation that takes effect at a moment'
printf '%s %s\n' "${id}01" $((start + 2 * hour)) "${id}01" $((start + day)) >revoked-later.txt
ask 0 "granted: read of \"$device/camera/front\"" \
    -- 01 "$student" "$terminal" "$device/camera/front" read $((start + 2 * hour - 1)) revoked-later.txt
ask 1 'refused: E_DESCRIPTOR_REVOKED (8)' "  now: $((start + 2 * hour)) (2026-01-01 02:00:00 UTC)" \
    -- 01 "$student" "$terminal" "$device/camera/front" read $((start + 2 * hour)) revoked-later.txt

heading 'Leases: a descriptor that has to be synced every day, with a grace of 5 minutes; skew and tolerance 5 seconds'
# lease FILE ID-END STATUS LAST-SYNC: adds a line to a lease file, for a last sync in seconds.
lease() {
    printf '%s %s %s000 %s 300 5000 5000\n' "$id$2" "$3" "$4" $day >>"$1"
}
# ask_leased STATUS LINE... -- ID-END NOW LEASE-FILE: a request to read the front camera.
ask_leased() {
    local lines=()
    while [ "$1" != -- ]; do
        lines+=("$1")
        shift
    done
    ask "${lines[@]}" -- "$2" "$student" "$terminal" "$device/camera/front" read "$3" - "$4"
}
printf '# ID STATUS LAST-SYNC TTL GRACE SKEW TOLERANCE\n' >leases.txt
lease leases.txt 04 live $((start + hour))
lease leases.txt 01 live $start
cat leases.txt
ask_leased 0 "granted: read of \"$device/camera/front\"" '  lease: active for another 19 h 0 min 5.000 s' -- 01 $((start + 5 * hour)) leases.txt
ask_leased 0 '  lease: active for another 0.000 s' -- 01 $((start + day + 5)).000 leases.txt
ask_leased 1 'refused: lease stale (24)' '  step: 8, lease state' '  lease: stale for 0.001 s; sync within 4 min 59.999 s and ask again' \
    "  now: $((start + day + 5)).001 (2026-01-02 00:00:05.001 UTC)" -- 01 $((start + day + 5)).001 leases.txt
ask_leased 1 'refused: lease stale (24)' '  lease: stale for 2 min 0.000 s; sync within 3 min 0.000 s and ask again' \
    -- 01 $((start + day + 125)) leases.txt
lease synced.txt 01 live $((start + day + 125))
ask_leased 0 '  lease: active for another 1 d 0 h 0 min 5.000 s' -- 01 $((start + day + 125)) synced.txt
ask_leased 1 'refused: lease expired (25)' '  lease: expired 4 min 55.000 s ago; a new descriptor is needed' \
    -- 01 $((start + day + 600)) leases.txt
lease ahead.txt 01 live $((start + hour))
ask_leased 1 'refused: lease future (23)' '  lease: the last sync is 1 h 0 min 0.000 s ahead of the clock, and 5.000 s are allowed; check the clock' \
    -- 01 $start ahead.txt
ask_leased 0 '  lease: active for another 1 d 0 h 0 min 10.000 s' -- 01 $((start + hour - 5)) ahead.txt
lease revoked-lease.txt 01 revoked $start
ask_leased 1 'refused: lease revoked (26)' '  step: 8, lease state' '  lease: revoked' -- 01 $((start + hour)) revoked-lease.txt
lease other-lease.txt 02 revoked $start
ask_leased 0 '  lease: none' -- 01 $((start + hour)) other-lease.txt
cat leases.txt synced.txt >twice-leased.txt
ask_leased 1 'refused: malformed arguments (15)' -- 01 $((start + hour)) twice-leased.txt
ask 1 'refused: E_DESCRIPTOR_REVOKED (8)' \
    -- 01 "$student" "$terminal" "$device/camera/front" read $((start + hour)) revoked.txt revoked-lease.txt

# ask_camera STATUS LINE... -- IMAGE ID NOW: a request to read the front camera, to another image.
ask_camera() {
    local lines=()
    while [ "$1" != -- ]; do
        lines+=("$1")
        shift
    done
    must "${lines[@]}" -- request "$2" keys.txt "$3" "$student" "$terminal" "$device/camera/front" read "$4" $hour
}

heading 'An image of edition 1 is for requests only, until it is upgraded'
# first_edition FILE DESCRIPTOR ID MASK SIZE: an image file of edition 1 of one descriptor, as the versions before 0.5.0 made it.
first_edition() {
    local row
    row=$(printf '%s%08x%08x%02x%014x' "${3//-/}" 40 "$(wc -c <"$2")" "$4" 0)
    { printf '\0\1\0\1\0\1\0\0' && printf "$(sed 's/../\\x&/g' <<<"$row")" && cat "$2"; } >"$1"
    truncate -s "$5" "$1"
}
first_edition old student.cbor "${id}01" 5 1024
cp old old.before
ask_camera 0 "granted: read of \"$device/camera/front\"" -- old "${id}01" $((start + hour))
unchanged old old.before
must 1 'refused: bad image (16)' \
    '  hint: the image is of edition 1, which is for requests only; `host upgrade IMAGE SIZE` turns it into one of edition 2' \
    -- submit old keys.txt guest.cbor $start
must 1 'refused: output too short (17)' '  step: upgrade' -- upgrade old $((8 + 40 + $(wc -c <student.cbor) - 1))
must 1 'refused: bad image (16)' '  step: upgrade' -- upgrade image 8192
unchanged old old.before
must 0 "upgraded: image of edition 2, 2048 bytes, of which $((8 + 40 + $(wc -c <student.cbor))) are in use" -- upgrade old 2048
must 1 'refused: bad image (16)' -- upgrade old 2048
must 0 "stored: descriptor ${id}09" -- submit old keys.txt guest.cbor $start
ask_camera 0 "  last used, written: $((start + hour)) (2026-01-01 01:00:00 UTC)" -- old "${id}01" $((start + hour))
ask_camera 0 "granted: read of \"$device/camera/front\"" -- old "${id}09" $((start + hour))

heading 'A descriptor with an id of version 4, stored before: requests for it are decided as before, and it is refused when it is submitted again'
first_edition before version-4.cbor "$version_4" 5 1024
ask_camera 0 "granted: read of \"$device/camera/front\"" -- before "$version_4" $((start + hour))
must 0 "upgraded: image of edition 2, 2048 bytes, of which $((8 + 40 + $(wc -c <version-4.cbor))) are in use" -- upgrade before 2048
cp before before.upgraded
must 1 'refused: E_INVALID_STRUCTURE (1)' "$ids_hint" "  id: $version_4" -- submit before keys.txt version-4.cbor $start
unchanged before before.upgraded
must 0 "stored: descriptor ${id}01" -- submit before keys.txt student.cbor $start
ask_camera 0 "granted: read of \"$device/camera/front\"" "  last used, written: $((start + hour)) (2026-01-01 01:00:00 UTC)" -- before "$version_4" $((start + hour))
ask_camera 1 'refused: E_DESCRIPTOR_EXPIRED (10)' -- before "$version_4" $((start + 30 * day))

heading 'A full image: expired descriptors make room, the least recently used first; no other does'
must 0 "new image: $((8 + 2 * 40 + $(cat student.cbor expired.cbor | wc -c))) bytes, no descriptor" \
    -- new full $((8 + 2 * 40 + $(cat student.cbor expired.cbor | wc -c)))
must 0 "stored: descriptor ${id}01" -- submit full keys.txt student.cbor $start
must 0 "stored: descriptor ${id}03" -- submit full keys.txt expired.cbor $start
ask_camera 1 'refused: E_DESCRIPTOR_EXPIRED (10)' -- full "${id}03" $start
must 0 "stored: descriptor ${id}0b" "  removed, since it was expired and room was needed: descriptor ${id}03" -- submit full keys.txt child-inside.cbor $start
ask_camera 1 'refused: E_DESCRIPTOR_NOT_FOUND (7)' -- full "${id}03" $start
ask_camera 0 "granted: read of \"$device/camera/front\"" "  last used, written: $((start + hour)) (2026-01-01 01:00:00 UTC)" -- full "${id}01" $((start + hour))
cp full full.before
must 1 'refused: E_STORAGE_FULL (6)' \
    "  why: 1,024 descriptors are held, or this one doesn't fit into the image, also without the expired ones" \
    -- submit full keys.txt child-later.cbor $((start + 30 * day - 1))
unchanged full full.before
must 0 "stored: descriptor ${id}0d" "  removed, since it was expired and room was needed: descriptor ${id}0b" \
    -- submit full keys.txt child-later.cbor $((start + 30 * day))
ask_camera 1 'refused: E_DESCRIPTOR_EXPIRED (10)' -- full "${id}01" $((start + 30 * day))

heading 'A stored descriptor that someone has changed on the disk'
must 0 'new image: 2048 bytes, no descriptor' -- new changed 2048
must 0 "stored: descriptor ${id}01" -- submit changed keys.txt student.cbor $start
printf '\377' | dd of=changed bs=1 seek=$((8 + 40 + $(wc -c <student.cbor) - 1)) conv=notrunc status=none
must 1 'refused: E_INVALID_SIGNATURE (4)' '  step: 7, signature validation' \
    -- request changed keys.txt "${id}01" "$student" "$terminal" "$device/furnace/temperature" read $start $hour

heading 'Narrowing a child under its parent'
must 0 'accepted: every moment, path and mode that the child admits, the parent admits' -- narrow parent.cbor child-inside.cbor
must 1 'refused: grant not covered (20)' "  child's grant 1" "    pattern: \"$device/camera/**\"" '  escapes in mode: write' \
    '  levels: 2 (the fewest names that its "**" takes in a path that escapes)' -- narrow parent.cbor child-escapes.cbor
must 1 'refused: period not inside (18)' '  step: 4, period' -- narrow parent.cbor child-later.cbor
must 1 'refused: constraint present (19)' '  step: 3, constraints' -- narrow parent.cbor student.cbor
must 1 "refused: parent doesn't read (21)" '  step: 1, reading of the parent' -- narrow cut.cbor child-inside.cbor
must 1 'refused: E_INVALID_STRUCTURE (1)' '  step: 2, reading of the child' -- narrow parent.cbor cut.cbor

heading 'Errors of files and arguments'
must 2 'error: cannot open: missing.cbor: No such file or directory' -- show missing.cbor
must 2 'error: bad argument: MODE: look' \
    -- request image keys.txt "${id}01" "$student" "$terminal" "$device/camera/front" look $start $hour
cat keys.txt keys.txt >twice.txt
must 2 'error: twice.txt: line 6: an earlier line has the same issuer, key id and algorithm' -- submit image twice.txt student.cbor $start
printf '%s\n' "${id}01" "${id}01 tomorrow" >bad-moment.txt
ask 2 "error: bad-moment.txt: line 2: the moment isn't a number of seconds" \
    -- 01 "$student" "$terminal" "$device/camera/front" read $start bad-moment.txt
printf '%s\n' "${id}01 $start $hour" >three-fields.txt
ask 2 'error: three-fields.txt: line 1: a revocation has 1 or 2 fields' \
    -- 01 "$student" "$terminal" "$device/camera/front" read $start three-fields.txt
ask 2 "error: bad argument: NOW: $start.5" -- 01 "$student" "$terminal" "$device/camera/front" read $start.5
printf '%s\n' "${id}01 live $start" >few-fields.txt
ask_leased 2 'error: few-fields.txt: line 1: a lease has 7 fields' -- 01 $start few-fields.txt
printf '%s\n' "${id}01 stale 0 0 0 0 0" >bad-status.txt
ask_leased 2 'error: bad-status.txt: line 1: the status is neither live nor revoked' -- 01 $start bad-status.txt
printf '%s\n' "${id}01 live 0 1d 0 0 0" >bad-ttl.txt
ask_leased 2 "error: bad-ttl.txt: line 1: the ttl isn't a number of seconds" -- 01 $start bad-ttl.txt

printf '\n%s answers, each as it must be.\n' "$checked"
