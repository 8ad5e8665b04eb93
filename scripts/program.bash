# The program and its sources: their checksum, the committed program of bin/, and the folder `keep`, in
# which programs and checksums are kept. `./erldist`, `./verify` and scripts/release read this file, with
# `top` set to the folder of the repository.
#
#   $keep/SUM/erldist          the program that was proved and built here, from the sources of this checksum
#   $keep/bin-SHA/erldist      the committed program, unpacked
#   $keep/sources              'SUM ID': the checksum of the sources while names.ID has the status stats.ID

# The tag of a message on standard error.
say() {
    echo "erldist: $*" >&2
}

# Sets `keep` to a folder that can be written: out/ or, in a checkout that can't be written, one of the
# user's cache. Fails where there is neither, and then leaves `keep` empty.
choose_keep() {
    local cache=${XDG_CACHE_HOME:-${HOME:-}/.cache}
    keep=$top/out
    [ -d "$keep" ] || mkdir "$keep" 2> /dev/null
    [ ! -w "$keep" ] || return 0
    keep=
    [[ $cache = /* ]] || return 1
    cache=$cache/erldist/$(printf %s "$top" | sha256sum | cut -c1-16)
    mkdir -p "$cache" 2> /dev/null && [ -w "$cache" ] && keep=$cache
}

# Prints the crates of this repository that the program stands on, itself first.
crates_of_program() {
    local -A libraries=() seen=()
    local head words name todo=(erldist)
    while IFS=: read -r head words; do
        name=${head%%[[:space:]]*}
        [ -z "$name" ] || libraries[$name]=$words
    done < <(sed 's/#.*//' "$top/crates.txt")
    while [ ${#todo[@]} -gt 0 ]; do
        name=${todo[0]}
        todo=("${todo[@]:1}")
        [ -z "${seen[$name]:-}" ] && [ -d "$top/crates/$name" ] || continue
        seen[$name]=1
        echo "$name"
        read -ra words <<< "${libraries[$name]:-}"
        todo+=("${words[@]}")
    done
}

# Prints the lines of crates.txt of these crates, without comments and further spaces.
lines_of() {
    local names=" $* "
    sed 's/#.*//' "$top/crates.txt" | awk -F: -v names="$names" '{ split($1, head, " "); if (head[1] != "" && index(names, " " head[1] " ")) { $1 = $1; print } }' | tr -s ' ' ' ' | LC_ALL=C sort
}

# Prints the folders of the sources, definitions and proofs of these crates.
folders_of() {
    local name part
    for name in "$@"; do
        for part in src specs proofs; do
            [ ! -d "$top/crates/$name/$part" ] || echo "crates/$name/$part"
        done
    done
}

# Prints the checksum of the sources, definitions and proofs of the program's crates, and of their lines of
# crates.txt. Nothing else in the repository counts.
sum_of_sources() {
    (
        cd "$top" || exit 1
        mapfile -t names < <(crates_of_program)
        mapfile -t folders < <(folders_of "${names[@]}")
        {
            lines_of "${names[@]}"
            find "${folders[@]}" -type f \( -name '*.rt' -o -name '*.antt' \) -print0 | LC_ALL=C sort -z | xargs -0 sha256sum
        } | sha256sum | cut -c1-16
    )
}

# Prints the paths, each ended by a NUL, whose status tells of every change of a source: the files, and the
# folders, whose times change when a file comes or goes.
paths_of_sources() {
    (
        cd "$top" || exit 1
        mapfile -t names < <(crates_of_program)
        mapfile -t folders < <(folders_of "${names[@]}")
        printf '%s\0' crates.txt crates "${names[@]/#/crates/}"
        find "${folders[@]}" -print0
    )
}

# Prints the status of the paths in a file: size, times of the last changes, and inode.
status_of() {
    (cd "$top" && xargs -0 -s 500000 -a "$1" stat --printf='%s %.9Y %.9Z %i %n\n') 2>&1
}

# Waits until a change of any path of this status would show in its times: for a tenth of a second. Fails
# where that takes longer: where a time is in the future, or is a recent one in whole seconds.
settle_times() {
    local newest margin
    newest=$(awk '{ if ($2 > newest) newest = $2; if ($3 > newest) newest = $3; if ($3 !~ /\.0*$/) fine = 1 }
        END { printf "%.6f %s\n", newest, (fine ? "0.1" : "2.1") }' "$1") || return 1
    read -r newest margin <<< "$newest"
    awk -v newest="$newest" -v margin="$margin" -v now="$(date +%s.%N)" \
        'BEGIN { age = now - newest; exit age > margin ? 0 : age > 0 && margin < 1 ? 3 : 1 }'
    case $? in
        0) ;;
        3) sleep 0.12 ;;
        *) return 1 ;;
    esac
}

# Sets `sum` to the checksum of the sources. While no path has changed its status since the checksum was
# kept, it is the one that was kept.
find_sum() {
    local id names stats
    if read -r sum id 2> /dev/null < "$keep/sources" && [ -f "$keep/names.$id" ] &&
        status_of "$keep/names.$id" | cmp -s - "$keep/stats.$id"; then
        return
    fi
    id=$(date +%s%N).$$
    names=$keep/names.$id
    stats=$keep/stats.$id
    if paths_of_sources > "$names" && status_of "$names" > "$stats" && settle_times "$stats"; then
        sum=$(sum_of_sources)
        if status_of "$names" | cmp -s - "$stats" && echo "$sum $id" > "$keep/sources.$id"; then
            mv -f "$keep/sources.$id" "$keep/sources"
            find "$keep" -maxdepth 1 \( -name 'names.*' -o -name 'stats.*' \) ! -name "*.$id" -delete
            return
        fi
    fi
    rm -f "$names" "$stats"
    sum=$(sum_of_sources)
}

# Keeps the program of a file as the one that was proved and built from the sources of this checksum.
keep_program() {
    local file=$1 sum=$2
    mkdir -p "$keep/$sum" &&
        cp "$file" "$keep/$sum/erldist.$$" &&
        chmod 755 "$keep/$sum/erldist.$$" &&
        mv -f "$keep/$sum/erldist.$$" "$keep/$sum/erldist"
}

# Sets manifest_sources, manifest_sha256, manifest_kit, manifest_version and manifest_commit to the lines of
# bin/manifest. Fails where there is none.
read_manifest() {
    local name value
    [ -f "$top/bin/manifest" ] && [ -f "$top/bin/erldist.gz" ] || return 1
    while IFS=' ' read -r name value; do
        case $name in
            sources: | sha256: | kit: | version: | commit:) printf -v "manifest_${name%:}" %s "$value" ;;
        esac
    done < "$top/bin/manifest"
    [[ ${manifest_sources:-} =~ ^[0-9a-f]{16}$ && ${manifest_sha256:-} =~ ^[0-9a-f]{64}$ ]]
}

# Unpacks the committed program into a file, and sees that its SHA-256 is the manifest's and that it runs on
# this machine: on an empty script it ends with 0. Says why where it can't be taken.
unpack_committed() {
    local file=$1 found
    if ! command -v gzip > /dev/null; then
        say "bin/erldist.gz can't be unpacked: there is no gzip on the PATH"
        return 1
    fi
    if ! gzip -dc "$top/bin/erldist.gz" > "$file" 2> /dev/null; then
        say "bin/erldist.gz can't be unpacked: it is damaged, or there is no space left"
        return 1
    fi
    found=$(sha256sum < "$file" | cut -c1-64)
    if [ "$found" != "$manifest_sha256" ]; then
        say "bin/erldist.gz isn't the program of bin/manifest: its SHA-256 is $found. 'git checkout bin' restores both"
        return 1
    fi
    chmod 755 "$file" || return 1
    if ! "$file" < /dev/null > /dev/null 2>&1; then
        say "the committed program doesn't run on this machine: it wants x86-64 Linux with glibc 2.34 or later"
        return 1
    fi
}
