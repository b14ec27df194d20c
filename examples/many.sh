#!/usr/bin/env bash
# Audits a folder of elections on all processors, and writes byte for byte what `pbaudit folder` writes, with its status.
# usage: examples/many.sh FOLDER [options of pbaudit folder]
# PBAUDIT names the program (without it: the launcher at the top of the repository), and JOBS how many run at a time (without
# it: one for each processor). Each election gets a folder of its own below TMPDIR, with hard links to its files, or copies
# where TMPDIR is on another disk.
set -uo pipefail
export LC_ALL=C

if [ $# = 0 ]; then
    echo 'usage: examples/many.sh FOLDER [options of pbaudit folder]' >&2
    exit 3
fi
given=$1 folder=$1
shift
# A folder whose name begins with '-' is no word for the commands below.
case $folder in
    ''|/*) ;;
    -*) given=./$folder folder=./$folder ;;
    *) folder=./$folder ;;
esac
program=${PBAUDIT:-$(dirname "$(readlink -f "${BASH_SOURCE[0]}")")/../pbaudit}
jobs=${JOBS:-$(nproc)}
work=$(mktemp -d) || exit 70
trap 'rm -rf "$work"' EXIT

# Writes an answer that is whole: a file, and what goes to standard error.
finish() {
    cat "$1" || { echo 'fault write' >&2; exit 4; }
    cat "$2" >&2
    exit "$3"
}

# Puts a regular file into another folder. For one that can't be read, one is put there that can't be read either.
put() {
    ln -- "$1" "$2" 2>/dev/null || cp -- "$1" "$2" 2>/dev/null || {
        ! [ -r "$1" ] || { echo "many.sh: $1 could not be copied" >&2; exit 70; }
        : > "$2" && chmod 000 "$2"
    }
}

is_file() {
    [ -f "$1" ] && ! [ -L "$1" ]
}

# A folder of links with the same names has no regular file. What is answered on it is the answer on a folder that can't be
# listed, on words that aren't understood, and on a folder without elections.
mkdir "$work/names" "$work/parts"
if [ -z "$folder" ] || ! find "$folder/" -mindepth 1 -maxdepth 1 -printf '%P\0' > "$work/list" 2>/dev/null; then
    "$program" folder "$given" "$@"
    exit $?
fi
mapfile -d '' -t names < "$work/list"
for name in "${names[@]}"; do
    ln -s nothing "$work/names/$name"
done
status=0
"$program" folder "$work/names" "$@" > "$work/out" 2> "$work/err" || status=$?
if [ "$status" != 0 ] || ! grep -Eq '^(total 0 |\{"elections":0,)' "$work/out"; then
    "$program" folder "$given" "$@"
    exit $?
fi

# The elections, in the byte order of their names without .pb, and, of all names like those of elections and certificates, in
# small or capital letters, empty files, or links where there is no regular file: what is told beside the report depends on
# these alone.
elections=()
mkdir "$work/empty"
for name in "${names[@]}"; do
    case ${name,,} in
        *.pb|*.prices.csv|*.violation.csv|*.refutation.csv|prices.csv|violation.csv|refutation.csv)
            if is_file "$folder/$name"; then : > "$work/empty/$name"; else ln -s nothing "$work/empty/$name"; fi
            ;;
    esac
    case $name in
        *[$'\001'-$'\037\177']*) ;;
        ?*.pb) ! is_file "$folder/$name" || elections+=("${name%.pb}") ;;
    esac
done
"$program" folder "$work/empty" > "$work/none" 2> "$work/told"
[ "${#elections[@]}" != 0 ] || finish "$work/out" "$work/told" 0
mapfile -d '' -t elections < <(printf '%s\0' "${elections[@]}" | sort -z)

for number in "${!elections[@]}"; do
    part=$work/parts/$number name=${elections[$number]}
    mkdir "$part"
    put "$folder/$name.pb" "$part/$name.pb"
    for ending in prices.csv violation.csv; do
        ! is_file "$folder/$name.$ending" || put "$folder/$name.$ending" "$part/$name.$ending"
    done
    printf '%s\0' "$part"
done > "$work/queue"

# The words of the program, and last the folder of one election.
audit='part=${!#}; set -- "${@:1:$#-1}"; "$1" folder "$part" "${@:2}" > "$part.out" 2> "$part.err"; echo "$?" > "$part.status"'
if parallel --version 2>/dev/null | grep -q '^GNU parallel'; then
    parallel -0 -q -j "$jobs" bash -c "$audit" bash "$program" "$@" < "$work/queue"
else
    xargs -0 -n 1 -P "$jobs" bash -c "$audit" bash "$program" "$@" < "$work/queue"
fi

# The reports in order, and the sum of their totals. A total has four numbers: elections, yes, no and refused, or, as JSON,
# elections, no, refused, the version and yes.
yes=0 no=0 refused=0 json=''
! grep -q '^{' "$work/out" || json=yes
for number in "${!elections[@]}"; do
    part=$work/parts/$number status=none
    read -r status < "$part.status"
    case $status in
        0|1|2) ;;
        *)
            cat "$part.err" >&2
            [ "$status" != none ] || { echo "many.sh: no answer on ${elections[$number]}.pb" >&2; status=70; }
            exit "$status"
            ;;
    esac
    head -n -1 "$part.out"
    read -r _ y n r last < <(tail -n 1 "$part.out" | tr -cs '0-9' ' ')
    [ -z "$json" ] || { r=$n n=$y y=$last; }
    yes=$((yes + y)) no=$((no + n)) refused=$((refused + r))
done > "$work/report"
if [ -n "$json" ]; then
    echo "{\"elections\":${#elections[@]},\"kind\":\"total\",\"no\":$no,\"refused\":$refused,\"version\":1,\"yes\":$yes}"
else
    echo "total ${#elections[@]} elections $yes yes $no no $refused refused"
fi >> "$work/report"
status=0
[ "$no" = 0 ] || status=1
[ "$refused" = 0 ] || status=2
finish "$work/report" "$work/told" "$status"
