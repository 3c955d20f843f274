# How far a proof is, by time. build reads these functions, and has set name, top and out.
# NAME.seconds has, of one first run that was measured, the second in which each step ended, a line a step in their order:
#   STEP SECONDS      STEP is a crate, or sources for the pass over all of them that comes first, or built for the end
# Its first line says on which machine. The same lines of a run of one's own stand afterwards in out/NAME.seconds;
# write_seconds makes the table of these.
# shellcheck shell=sh disable=SC2154

minute="-- a minute"

begin_progress() {
        table=$here/$name.seconds
        begun=$(date +%s)
        whole=$(second_of built)
        # The furthest step in the table that has ended, and when it did; and the same of what an earlier run had done.
        place=0 at=0 base=0 base_at=0
        : >"$out/$name.seconds"
}

second_of() { # STEP
        awk -v step="$1" '$1 == step { print $2 }' "$table" 2>/dev/null
}

in_minutes() { # SECONDS
        echo $((($1 + 30) / 60))
}

expected() {
        if [ -n "$whole" ]; then
                machine=$(sed -n '1s/.* ended, on \(.*\): .*/\1/p' "$table")
                echo "from nothing about $(in_minutes "$whole") minutes on $machine, with 4.4 to 7 GB of memory and 7.6 GB of disk"
        else
                echo "how long it takes was not measured"
        fi
}

# What took an eighth of its time in the table or less was kept by an earlier run, and tells nothing of the speed.
was_kept() { # SECOND NOW
        [ $((($2 - at + 2) * 8)) -lt $(($1 - place)) ] || [ $((($2 - base_at) * 8)) -lt $(($1 - base)) ]
}

# A step has ended, at a second of the table, and of this run.
advance() { # SECOND NOW
        [ "$1" -gt "$place" ] || return 0
        ! was_kept "$1" "$2" || base=$1 base_at=$2
        place=$1 at=$2
}

# How long this run takes, if the rest goes at the speed of what it proved itself; at the table's where that is nothing.
estimate() { # NOW
        left=$((whole - place))
        [ "$place" -eq "$base" ] || left=$((left * (at - base_at) / (place - base)))
        estimated=$((at + left))
        [ "$estimated" -ge "$1" ] || estimated=$1
        echo "$estimated"
}

tell() { # WHAT
        now=$(($(date +%s) - begun))
        if [ -n "$whole" ] && [ "$place" -gt 0 ]; then
                say "$1about $(in_minutes "$now") of $(in_minutes "$(estimate "$now")") minutes"
        else
                say "$1$(in_minutes "$now") minutes so far"
        fi
}

end_step() { # STEP
        now=$(($(date +%s) - begun))
        echo "$1 $now" >>"$out/$name.seconds"
        second=$(second_of "$1")
        [ -z "$second" ] || advance "$second" "$now"
}

# Reads what the proof says, and keeps it.
show_progress() { # LOG
        while IFS= read -r line; do
                case $line in
                "$minute")
                        tell ""
                        continue
                        ;;
                "rt: waiting"*) say "${line#rt: }" ;;
                "only="*) end_step sources ;;
                "== summary") ;;
                "== "*)
                        end_step "${line#== }"
                        tell "${line#== } has ended, "
                        ;;
                esac
                printf '%s\n' "$line" >&3
        done 3>"$1"
}
