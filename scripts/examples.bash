# Tries the program: each example and its drawing, each step of a page, each command line. ./verify reads
# this file, with `room` set to a folder of its own, `program` to the program, and `count` to its counter,
# which adds to `passed` and `failed`.
# Only bash, coreutils, diffutils and awk are needed.

# Runs an example's script, and prints the output in the form of the example's file.
run_example() {
    local base=$1 words=()
    [ ! -f "$base.args" ] || read -ra words < "$base.args"
    if [ -f "$base.script" ]; then
        timeout 60 "$program" "${words[@]}" < "$base.script"
    else
        bash "$base.bash" > "$room/script" && timeout 60 "$program" "${words[@]}" < "$room/script" | uniq -c
    fi
}

# Prints the difference between a file and the wanted one. A wanted file that isn't there is empty.
differs() {
    local wanted=$1
    [ -f "$wanted" ] || wanted=/dev/null
    diff "$wanted" "$2"
}

# Prints each line of the first file that doesn't stand in the second, behind the line before it. Its first
# line has to begin the second file, and its last line has to end it.
lacks() {
    awk '
        NR == FNR { text = text $0 "\n"; next }
        { at = index(text, $0); is_there = at == 1 || (at > 1 && FNR > 1) }
        is_there { text = substr(text, at + length($0)) }
        !is_there { print "it lacks " $0 }
        END { if (text != "\n") print "behind these it has " text }' "$2" "$1"
}

# Prints each way in which an example's run isn't that of its files.
wrong_in_example() {
    local base=$1 wanted=0 status
    [ ! -f "$base.status" ] || read -r wanted < "$base.status"
    [ -f "$base.expected" ] || [ -f "$base.parts" ] || {
        echo "there is no $base.expected"
        return
    }
    run_example "$base" > "$room/stdout" 2> "$room/stderr"
    status=$?
    [ "$status" = "$wanted" ] || echo "its status is $status, and not $wanted"
    if [ -f "$base.parts" ]; then
        lacks "$base.parts" "$room/stdout"
    else
        differs "$base.expected" "$room/stdout"
    fi
    differs "$base.stderr" "$room/stderr"
}

# Prints the difference between the kept drawing of an example and the one that the program draws: of a script
# with blocks, that of its outcomes.
wrong_in_drawing() {
    local base=$1 words=(--picture)
    ! is_explored "$base" || words=(--explore --picture)
    timeout 60 "$program" "${words[@]}" < "$base.script" > "$room/drawing" 2> /dev/null
    cmp "$base.svg" "$room/drawing" 2>&1
}

# Prints the output of an example without the words of its file, and without the lines of sent frames.
print_plainly() {
    local base=$1
    if [ -f "$base.args" ]; then
        timeout 60 "$program" < "$base.script"
    else
        grep -v '^sent ' "$base.expected"
    fi
}

# Prints each way in which an example's run with --threads differs from its run without. A script that runs
# through prints 'merged' too.
wrong_in_threads() {
    local base=$1 wanted=0 status
    [ ! -f "$base.status" ] || read -r wanted < "$base.status"
    timeout 60 "$program" --threads < "$base.script" > "$room/stdout" 2> "$room/stderr"
    status=$?
    [ "$status" = "$wanted" ] || echo "with --threads its status is $status, and not $wanted"
    { print_plainly "$base"; [ "$wanted" -ne 0 ] || echo merged; } | diff - "$room/stdout"
    differs "$base.stderr" "$room/stderr"
}

# Counts a thing as passed where nothing is wrong with it, and else prints all that is.
judge() {
    local name=$1 wrong=$2
    [ -z "$wrong" ]
    count "$name" $?
    [ -z "$wrong" ] || echo "$wrong"
}

# Tells if an example runs with --explore: then its script has blocks, which nothing runs without it.
is_explored() {
    [ -f "$1.args" ] && grep -q -e --explore "$1.args"
}

# Tries each example: its output, its threads, its drawing.
try_scripts() {
    local example base
    for example in examples/*.script examples/*.bash; do
        base=${example%.*}
        judge "$base" "$(wrong_in_example "$base")"
        [ -f "$base.script" ] || continue
        [ ! -f "$base.threads" ] || judge "$base --threads" "$(wrong_in_threads "$base")"
        judge "$base.svg" "$(wrong_in_drawing "$base")"
    done
}

# Splits a page into its steps, $room/steps/N, each with the files of an example. Prints each fault of the
# page's form. A step is a script, one of
#
#   erldist WORDS            the script, which runs with these words of a command line, or with none
#   erldist-both             the script, which runs without --threads, and with it
#   erldist-printed WORDS    lines of Bash that print the script
#
# and behind it the output, and the message or lines to run behind the script. Without an output it prints
# nothing.
#
#   output                   the whole output
#   parts                    parts of the output, one a line, as `lacks` finds them
#   message STATUS           the exit status, and the whole of standard error; else these are 0 and nothing
#   each                     lines and their answers, as `answer_each` prints them
#
# Each is a block, whose first line is ``` and these words. A block without words is no part of a step.
split_page() {
    awk -v steps="$room/steps" '
        function wrong(text) { print "line " NR ": " text }
        function put(suffix, text) { printf "%s", text > (base suffix); close(base suffix) }
        function begin(suffix) { put(suffix, ""); file = base suffix }
        inside && $0 == "```" {
            if (file ~ /[.]each$/ && !listed) wrong("the block has no line that runs")
            if (file != "") close(file)
            inside = 0
            file = ""
            next
        }
        inside && /^```/ { wrong("the block before this one is open") }
        inside { if (file != "") print > file; if (/^[>$] /) listed = 1; next }
        /^[ \t]+```|^[ \t]*~~~/ { wrong("a block has to begin with ```, at the beginning of its line") }
        !/^```/ { next }
        { inside = 1; words = form = substr($0, 4); sub(/^[^ ]+ ?/, "", words) }
        form == "" { next }
        form == "erldist-both" || form ~ /^erldist(-printed)?( |$)/ {
            if (due) wrong("the script before this one has no output and no message")
            base = sprintf("%s/%03d", steps, ++count)
            begin(".script")
            if (words != "") put(".args", words "\n")
            if (form ~ /-both/) put(".threads", "")
            if (form ~ /-printed/) begin(".bash")
            due = may = 1
            parts = 0
            next
        }
        due && form == "output" { begin(".expected"); due = 0; next }
        due && form == "parts" { begin(".parts"); due = 0; parts = 1; next }
        may && form ~ /^message [0-9]+$/ {
            if (due) put(".expected", "")
            put(".status", words "\n")
            begin(".stderr")
            due = may = 0
            next
        }
        may && !parts && form == "each" {
            if (due) put(".expected", "")
            begin(".each")
            due = may = listed = 0
            next
        }
        { wrong("no such block may stand here: " $0) }
        END {
            if (inside) wrong("the last block is open")
            if (due) wrong("the last script has no output and no message")
        }' "$1"
}

# Prints a block `each` with the answers of the program. A line stands behind '> ', and a line of Bash that
# prints one stands behind '$ '. Each runs alone behind the step's script. Below it comes all that it adds to
# the output, and then its message. With a message the status is 3.
answer_each() {
    local base=$1 script own line text said message wanted status words=()
    [ ! -f "$base.args" ] || read -ra words < "$base.args"
    script=$(cat "$base.script" && echo .)
    mapfile -t own < "$base.expected"
    while IFS= read -r line; do
        text=${line:2}
        case $line in
            '> '*) ;;
            '$ '*) text=$(bash -c "$text" < /dev/null) ;;
            *) continue ;;
        esac
        timeout 60 "$program" "${words[@]}" <<< "${script%.}$text" > "$room/stdout" 2> "$room/stderr"
        status=$?
        mapfile -t said < "$room/stdout"
        mapfile -t message < "$room/stderr"
        wanted=0
        [ ${#message[@]} -eq 0 ] || wanted=3
        [ "${said[*]::${#own[@]}}" != "${own[*]}" ] || said=("${said[@]:${#own[@]}}")
        said=("$line" "${said[@]}" "${message[@]}")
        [ "$status" = "$wanted" ] || said+=("its status is $status, and not $wanted")
        printf '%s\n' "${said[@]}"
    done < "$base.each"
}

# Prints each way in which a step's runs aren't those of its files.
wrong_in_step() {
    local base=$1
    [ ! -f "$base.bash" ] || bash "$base.bash" > "$base.script" || echo "the commands that print its script failed"
    wrong_in_example "$base"
    [ ! -f "$base.threads" ] || wrong_in_threads "$base"
    [ ! -f "$base.each" ] || answer_each "$base" | diff "$base.each" -
}

# Tries each step of a page, and that the page has no fault of its form.
try_page() {
    local page=$1 at=0 step wrong
    rm -rf "$room/steps" && mkdir "$room/steps" || return
    wrong=$(split_page "$page" 2>&1)
    [ -z "$wrong" ] || judge "$page" "$wrong"
    for step in "$room"/steps/*.script; do
        at=$((at + 1))
        judge "$page, step $at" "$(wrong_in_step "${step%.script}")"
    done
}

# Tries each line of examples/command_lines: an exit status, and the words of a command line. Its output
# and its message are those of examples/command_lines.d/N.stdout and N.stderr, where N is the line's number
# among them.
try_command_lines() {
    local at=0 status wanted words
    while read -r wanted words; do
        [[ $wanted =~ ^[0-9]+$ ]] || continue
        at=$((at + 1))
        # shellcheck disable=SC2086
        timeout 60 "$program" $words < examples/first_steps.script > "$room/stdout" 2> "$room/stderr"
        status=$?
        judge "erldist $words" "$(
            [ "$status" = "$wanted" ] || echo "its status is $status, and not $wanted"
            differs "examples/command_lines.d/$at.stdout" "$room/stdout"
            differs "examples/command_lines.d/$at.stderr" "$room/stderr"
        )"
    done < examples/command_lines
}

# Tries streams that can't be read or written: each ends the program with status 6, and with no message.
try_streams() {
    local script=examples/first_steps.script status
    "$program" < "$script" > /dev/full 2> "$room/stderr"
    status=$?
    judge "erldist > /dev/full" "$([ "$status" = 6 ] || echo "its status is $status, and not 6"; differs /dev/null "$room/stderr")"
    "$program" --explore < examples/race.script > /dev/full 2> "$room/stderr"
    status=$?
    judge "erldist --explore > /dev/full" "$([ "$status" = 6 ] || echo "its status is $status, and not 6"; differs /dev/null "$room/stderr")"
    "$program" --explore < examples > "$room/stdout" 2> "$room/stderr"
    status=$?
    judge "erldist --explore < a folder" "$([ "$status" = 6 ] || echo "its status is $status, and not 6"; cat "$room/stdout" "$room/stderr")"
    "$program" < examples > "$room/stdout" 2> "$room/stderr"
    status=$?
    judge "erldist < a folder" "$([ "$status" = 6 ] || echo "its status is $status, and not 6"; cat "$room/stdout" "$room/stderr")"
    "$program" < "$script" >&- 2> "$room/stderr"
    status=$?
    judge "erldist >&-" "$([ "$status" = 6 ] || echo "its status is $status, and not 6"; differs /dev/null "$room/stderr")"
}

# The events of three runs, one by one: a handshake with a link and a monitor that one node loses, two
# dials that cross, and a restart. Behind each beginning of these a fault comes.
handshake='deliver b@h a@h;deliver a@h b@h;deliver a@h b@h;deliver b@h a@h;deliver a@h b@h'
declare -A events_of=(
    [loss_at_one_node]="dial a@h b@h;$handshake;link p q;deliver b@h a@h;monitor q p m;deliver a@h b@h;unlink p q;link p q;deliver b@h a@h;deliver b@h a@h;deliver a@h b@h;lose a@h b@h;sweep a@h;sweep a@h;sweep a@h"
    [both_dial]="dial a@h b@h;dial b@h a@h;deliver b@h a@h;deliver a@h b@h;deliver a@h b@h;deliver b@h a@h;deliver b@h a@h;deliver a@h b@h;deliver b@h a@h;link q p;deliver a@h b@h"
    [restart]="dial a@h b@h;$handshake;link p q;deliver b@h a@h;stop b@h;start b@h;dial b@h a@h;deliver a@h b@h;deliver b@h a@h;sweep a@h;sweep a@h;deliver a@h b@h;deliver b@h a@h;deliver a@h b@h;deliver b@h a@h"
)

# Prints a script: the nodes, a beginning of a run, and a fault. After it both nodes start, lose whatever
# connects them, and connect again; both ends are asked for before and behind that. (While only one of them
# has lost the connection, nothing is in flight and yet they aren't quiet. An attempt that outlived a stop of
# its dialer is busy until it is lost, too.)
print_fault() {
    printf '%s\n' 'node a@h secret' 'node b@h secret' 'spawn a@h p' 'spawn b@h q' "${@:2}"
    printf '%s\n' "${1//;/$'\n'}" settle 'start a@h' 'start b@h' 'cut a@h b@h' settle 'lose a@h b@h' 'lose b@h a@h' settle
    printf '%s\n' 'ends p q' 'dial a@h b@h' settle 'ends p q' 'route a@h b@h' 'route b@h a@h'
}

# Prints each fault behind a beginning of a run after which the two ends don't agree once nothing is in
# flight, or the nodes don't connect again by one connection.
wrong_after_faults() {
    local events=() begun fault
    IFS=';' read -ra events <<< "${events_of[$1]}"
    for begun in $(seq 0 ${#events[@]}); do
        for fault in 'lose a@h b@h' 'lose b@h a@h' 'cut a@h b@h' 'stop a@h' 'stop b@h' 'stop a@h;start a@h' 'stop b@h;start b@h'; do
            print_fault "$fault" "${events[@]:0:begun}" | timeout 60 "$program" 2>&1 |
                awk -v where="after $begun events, $fault" '
                    { last = line; line = $0 }
                    $1 == "ends" { ends++; if ($2 != $3) print where ": " $0 }
                    END { if (ends != 2 || line != last || line !~ /^up /) print where ": " last ", " line }'
        done
    done
}

# Prints what examples/exit_payload.script has to print with nodes of these profiles: each node tells the flag
# word of its profile, and where one has the first the reason of the EXIT stands within the control term.
expected_under_profiles() {
    awk -v a="$1" -v b="$2" '
        BEGIN { profile["a@h"] = a; profile["b@h"] = b; split("000000040305010C 000000040345010C 000000040345012C", flags) }
        $1 == "sent" { sub(/000000040345012C/, flags[profile[$2]]) }
        $1 == "sent" && (a == 1 || b == 1) {
            # a length, and PAYLOAD_EXIT {24, From, To} with the reason noproc behind it
            if (sub(/^00000033708368036118/, "00000032708368046103", $4)) sub(/8377066E6F70726F63$/, "77066E6F70726F63", $4)
        }
        { print }' examples/exit_payload.expected
}

# Prints a script that monitors a name at a connected node, and what it has to print with nodes of these
# profiles: the monitor is refused unless both have the third.
name_under_profiles() {
    printf '%s\n' "node a@h c $1" "node b@h c $2" 'spawn a@h p' 'spawn b@h q' 'register q srv' 'dial a@h b@h' settle \
        'monitorname p b@h srv m' settle 'die q boom' settle 'receive p' > "$room/script"
    {
        printf '%s\n' 'up a@h 1' 'up b@h 1' '<a@h.1.0.1>' '<b@h.1.0.1>' done 'trunk a@h/1' settled
        if [ "$1$2" = 33 ]; then
            printf '%s\n' '#Ref<a@h.1.1.0.0>' settled done settled "message {'DOWN',#Ref<a@h.1.1.0.0>,process,{srv,b@h},boom}"
        else
            printf '%s\n' 'refused 28 NotOffered' settled done settled empty
        fi
    } > "$room/wanted"
}

# Prints each way in which the runs of these examples depend on the profiles of their nodes, but for the
# frames of examples/exit_payload.script and a monitor of a name.
wrong_under_profiles() {
    local a b name
    for a in 1 2 3; do
        for b in 1 2 3; do
            {
                name_under_profiles "$a" "$b"
                timeout 60 "$program" < "$room/script" 2>&1 | diff "$room/wanted" -
                for name in lost_connection both_dial wrong_cookie restart exit_payload; do
                    sed -E "s/^(node a@h [a-z]+).*/\1 $a/; s/^(node b@h [a-z]+).*/\1 $b/" "examples/$name.script" > "$room/script"
                    if [ "$name" = exit_payload ]; then
                        expected_under_profiles "$a" "$b" > "$room/wanted"
                        timeout 60 "$program" --trace < "$room/script" 2>&1 | diff "$room/wanted" -
                    else
                        timeout 60 "$program" < "$room/script" 2>&1 | diff "examples/$name.expected" -
                    fi
                    [ ! -f "examples/$name.threads" ] || {
                        { print_plainly "examples/$name"; echo merged; } > "$room/wanted"
                        timeout 60 "$program" --threads < "$room/script" 2>&1 | diff "$room/wanted" -
                    }
                done
            } | sed "s/^/profiles $a and $b: /"
        done
    done
}

# Tries the runs of some examples under each pair of profiles.
try_profiles() {
    judge "nodes of each pair of profiles" "$(wrong_under_profiles)"
}

# Tries a fault after each event of a run.
try_faults() {
    judge "a fault after each event of $1" "$(wrong_after_faults "$1")"
}

# Runs a command that judges, with a folder of its own as `room`. Leaves there what it prints and counts.
try_apart() {
    local room=$1 passed=0 failed=0
    mkdir -p "$room"
    "${@:2}" > "$room/said"
    echo "$passed $failed" > "$room/counts"
}

# Runs commands that judge side by side, each given as one text. Prints what each prints, and adds its counts.
try_side_by_side() {
    local commands=("$@") words=() started=() at good bad
    for at in "${!commands[@]}"; do
        read -ra words <<< "${commands[at]}"
        try_apart "$room/apart$at" "${words[@]}" &
        started+=($!)
    done
    for at in "${!started[@]}"; do
        wait "${started[at]}"
        cat "$room/apart$at/said"
        read -r good bad < "$room/apart$at/counts" || good=0 bad=1
        passed=$((passed + good))
        failed=$((failed + bad))
    done
}

# Tries all of this, and that the words that need no program are the program's own.
try_program() {
    local word commands=(try_scripts)
    for word in help version; do
        judge "scripts/$word.txt" "$("$program" "--$word" 2>&1 | diff "scripts/$word.txt" -)"
    done
    shopt -s nullglob
    for word in README.md docs/*.md tests/*.md; do
        commands+=("try_page $word")
    done
    commands+=(try_command_lines try_streams try_profiles)
    for word in "${!events_of[@]}"; do
        commands+=("try_faults $word")
    done
    try_side_by_side "${commands[@]}"
}
