#!/bin/sh
# Measures how much work and memory encoding and decoding a WAV file of two channels takes, beside other programs that
# are installed. It needs the built program, so it runs after the gate.
#
#     examples/measure.sh [FILE.wav]
#
# Without a file it takes the melody of this folder. Where valgrind is installed it counts instructions, in millions for
# a second of sound, without those of the program's start; where GNU time is installed it gives the seconds and the
# greatest memory in KiB of a call.

here=$(dirname -- "$(readlink -f -- "$0")")
celt=$here/../celt
folder=$(mktemp -d) || exit 1
trap 'rm -rf "$folder"' EXIT
sound=${1:-$folder/melody.wav}
[ -n "$1" ] || "$celt" decode <"$here/melody.opus" >"$sound" || exit 1
# The script only runs the program where it is built; what is counted is the program.
program=$here/../crates/celt/out/celt
size=$(wc -c <"$sound")

has() {
    command -v "$1" >/dev/null
}

# How many instructions a call takes: the words, from a file.
instructions() {
    from=$1
    shift
    valgrind --tool=callgrind --callgrind-out-file=/dev/null "$@" <"$from" 2>&1 >/dev/null |
        awk '/Collected/ { print $NF }'
}

# Instructions for a second of sound: those of the call less those of a call with an input that is refused at once.
count() {
    name=$1
    shift
    if has valgrind; then
        all=$(instructions "$@")
        shift
        start=$(instructions /dev/null "$@")
        awk -v n="$name" -v a="$all" -v s="$start" -v b="$size" \
            'BEGIN { printf "%-32s %8.1f million instructions a second of sound\n", n, (a - s) / 1e6 / ((b - 44) / 192000) }'
    fi
}

# Seconds and greatest memory of a call: the words, from a file.
spend() {
    name=$1
    from=$2
    shift 2
    if [ -x /usr/bin/time ]; then
        /usr/bin/time -o "$folder/spent" -f '%e %M' "$@" <"$from" >/dev/null 2>&1
        tail -n 1 "$folder/spent" | while read -r seconds memory; do
            printf '%-32s %8s s %8s KiB\n' "$name" "$seconds" "$memory"
        done
    fi
}

for bytes in 160 320; do
    "$program" encode --bytes $bytes <"$sound" >"$folder/$bytes.opus" || exit 1
    for words in "encode --bytes $bytes" 'decode --raw' ranges; do
        from=$folder/$bytes.opus
        [ "$words" = "encode --bytes $bytes" ] && from=$sound
        # shellcheck disable=SC2086 # the words are apart
        count "celt $words, $((bytes * 2 / 5)) kbit/s" "$from" "$program" $words
        # shellcheck disable=SC2086
        spend "celt $words, $((bytes * 2 / 5)) kbit/s" "$from" "$program" $words
    done
done

for effort in 10 5; do
    if has opusenc; then
        spend "opusenc --comp $effort, 64 kbit/s" "$sound" \
            opusenc --quiet --hard-cbr --bitrate 64 --comp $effort - -
    fi
done
if has opusdec; then
    spend 'opusdec, 64 kbit/s' "$folder/160.opus" opusdec --quiet "$folder/160.opus" "$folder/out.wav"
fi
if has ffmpeg; then
    spend 'ffmpeg, 64 kbit/s' "$folder/160.opus" ffmpeg -v error -y -i "$folder/160.opus" -f s16le "$folder/out.pcm"
fi
