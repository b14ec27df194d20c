#!/bin/bash
#SBATCH --mem=4G
# Audits the elections of a folder by a job array of Slurm, 100 elections a task.
# usage: job_array.sh cut FOLDER       puts hard links to its files below parts/, and prints how many tasks that makes
#        sbatch --array=0-LAST job_array.sh      runs the tasks, of which the last has the number LAST, counted from 0
#        job_array.sh report           prints the reports in order, and the sum of their totals; ends with the highest of
#                                      their statuses
set -u

fail() {
    printf 'job_array.sh: %s\n' "$1" >&2
    exit 3
}

cut_folder() {
    local count=0 part name file
    [ ! -e parts ] || fail 'parts is there already: remove it first'
    while IFS= read -r name; do
        part=parts/$((count / 100)); count=$((count + 1))
        mkdir -p "$part"
        for file in "$1/$name".pb "$1/$name".prices.csv "$1/$name".violation.csv; do
            [ ! -f "$file" ] || ln "$file" "$part" || exit 3
        done
    done < <(find "$1" -maxdepth 1 -type f -name '?*.pb' -printf '%f\n' | sed 's/\.pb$//' | LC_ALL=C sort)
    echo $(((count + 99) / 100))
}

report() {
    local outs
    mapfile -t outs < <(printf '%s\n' parts/*.out | sort -t / -k 2n)
    [ -f "${outs[0]}" ] || fail 'there is no report in parts'
    head -q -n -1 "${outs[@]}"
    tail -q -n 1 "${outs[@]}" | awk '{ e += $2; y += $4; n += $6; r += $8 }
        END { print "total", e, "elections", y, "yes", n, "no", r, "refused" }'
    exit "$(cat parts/*.status | sort -n | tail -n 1)"
}

case ${1:-} in
    cut) cut_folder "$2" ;;
    report) report ;;
    *)
        pbaudit folder "parts/$SLURM_ARRAY_TASK_ID" > "parts/$SLURM_ARRAY_TASK_ID.out"
        echo $? > "parts/$SLURM_ARRAY_TASK_ID.status"
        ;;
esac
