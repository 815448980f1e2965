#!/bin/sh
# The benchmark that docs/PERFORMANCE.md describes: nanoseconds a point of ours, of the Rust and of the limit, then
# instructions a point of them, counted by callgrind. It runs from anywhere, and writes to cargo's target/ and a temporary
# folder only.
set -eu
cd "$(dirname "$0")"

if [ "$(uname -m)" != x86_64 ]; then
    echo "Not run: ours is x86-64 code, and under an emulator neither its times nor its instructions mean anything."
    exit 0
fi

# Each operation of the program, and what it calls: with cleatmow_ before it the C call, with rust_ the oracle's function.
OPERATIONS="run_length:run_length run_length_1000:run_length unpack_complex:unpack_complex
    unpack_spatial_1:unpack_spatial unpack_spatial_2:unpack_spatial
    real_gust:unpack_spatial real_conus:unpack_complex real_puerto_rico:unpack_spatial
    pack_8:pack pack_64:pack pack_1024:pack
    pack_real_gust_8:pack pack_real_gust_64:pack pack_real_gust_1024:pack pack_real_gust_65535:pack
    pack_real_conus_8:pack pack_real_conus_64:pack pack_real_conus_1024:pack pack_real_conus_65535:pack"
# Those where the Rust is left out: at the greatest lookahead it would take too long. No limit is asked of them.
ALONE="pack_65535:pack pack_rising:pack pack_sawtooth:pack pack_patches:pack pack_alternating:pack
    pack_doubling:pack pack_spikes:pack pack_comb:pack"
# Writing the levels of a run-length map, which is cleatmow_write_run_length.
WRITING="write_run_length write_run_length_1000"
# By the octets of Section 5, which is cleatmow_unpack, and the C call with typed numbers that stands beside it.
BY_SECTION5="section5_complex:unpack_complex section5_spatial:unpack_spatial"
# One point, which is cleatmow_point.
ONE_POINT="point_first point_middle point_last point_conus_first point_conus_middle point_conus_last"
# Of the made maps: enough for a steady count, and few enough for callgrind. The real ones have the points that they have,
# and those that end with _1000 have 1,000.
POINTS=100000

cargo build --release --offline --quiet --bin bench
bench=${CARGO_TARGET_DIR:-target}/release/bench

report=$("$bench")
printf '%s\n' "$report"
case $report in "Not run:"*) exit 0 ;; esac

if ! command -v valgrind >/dev/null; then
    echo "Instructions are not counted: valgrind is not installed."
    exit 0
fi
folder=$(mktemp -d)
trap 'rm -rf "$folder"' EXIT
trap 'exit 1' HUP INT TERM

# counted OPERATION SIDE FUNCTION [DIGITS]: the points, and instructions a point inside the function, in the one call
# that the side makes. So many digits stand after the point: one unless said. Where the program says that the call goes
# through groups, it is the groups and instructions a group. `all` in place of digits asks for those of the whole call.
counted() {
    valgrind --tool=callgrind --callgrind-out-file="$folder/counts" --toggle-collect="$3" \
        "$bench" "$1" --points "$POINTS" "--only-$2" >"$folder/said" 2>&1 || {
        cat "$folder/said" >&2
        return 1
    }
    # No map is read for less than an instruction a point, or a group: the function was not found.
    units=$(sed -n 's/.*: one call on \([0-9]*\) [a-z]*$/\1/p' "$folder/said")
    awk -v units="$units" -v digits="${4:-1}" '/^summary:/ { count = $2 }
        END { if (units + 0 == 0 || count < units) exit 1
            if (digits == "all") printf "%d %d\n", units, count
            else printf "%d %." digits "f\n", units, count / units }' \
        "$folder/counts" || {
        echo "bench.sh: callgrind finds no function $3" >&2
        return 1
    }
}

for pair in $OPERATIONS; do
    operation=${pair%:*}
    function=${pair#*:}
    ours=$(counted "$operation" ours "cleatmow_$function")
    rust=$(counted "$operation" rust "oracle::*::rust_$function")
    echo "$operation: ${ours% *} points, instructions a point"
    echo "  ours, lent buffer  ${ours#* }"
    echo "  Rust, new list     ${rust#* }"
    test "${rust% *}" = "${ours% *}" || echo "  the Rust packs the first ${rust% *} alone"
    case $function in
    unpack_*) limit=$(counted "$operation" limit "bench::*::only_store") ;;
    pack) limit=$(counted "$operation" limit "bench::*::only_read") ;;
    *) continue ;;
    esac
    echo "  limit              ${limit#* }"
done

# What reading the same map takes stands above.
for operation in $WRITING; do
    ours=$(counted "$operation" ours cleatmow_write_run_length)
    echo "$operation: ${ours% *} levels, instructions a level"
    echo "  ours, lent buffer  ${ours#* }"
done

# What reading the section costs is small beside the map, so that it shows in more digits alone.
for pair in $BY_SECTION5; do
    operation=${pair%:*}
    ours=$(counted "$operation" ours cleatmow_unpack 3)
    typed=$(counted "$operation" typed "cleatmow_${pair#*:}" 3)
    echo "$operation: ${ours% *} points, instructions a point"
    awk -v ours="${ours#* }" -v typed="${typed#* }" 'BEGIN {
        printf "  by Section 5 %.3f, by typed numbers %.3f: %+.2f %%\n", ours, typed, 100 * (ours / typed - 1) }'
done

# What a call takes goes with the groups, not with the points.
for operation in $ONE_POINT; do
    ours=$(counted "$operation" ours cleatmow_point all)
    awk -v operation="$operation" -v groups="${ours% *}" -v call="${ours#* }" 'BEGIN {
        printf "%s: %d groups, %d instructions for the call, %.1f a group\n", operation, groups, call, call / groups }'
done

for pair in $ALONE; do
    operation=${pair%:*}
    ours=$(counted "$operation" ours "cleatmow_${pair#*:}")
    echo "$operation: ${ours% *} points, instructions a point"
    echo "  ours, lent buffer  ${ours#* }"
done
